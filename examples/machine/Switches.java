// tableswitch and lookupswitch; the methods named `pad` begin theirs at each of the four places in a word.
class Switches {
    static int dense(int a) {
        switch (a) {
            case 0:
                return 10;
            case 1:
                return 11;
            case 2:
                return 12;
            case 4:
                return 14;
            default:
                return -1;
        }
    }

    static int low(int a) {
        switch (a) {
            case -3:
                return 1;
            case -2:
                return 2;
            case -1:
                return 3;
            case 0:
                return 4;
            case 1:
                return 5;
            default:
                return 0;
        }
    }

    // the keys end at the greatest int
    static int high(int a) {
        switch (a) {
            case 2147483645:
                return 1;
            case 2147483646:
                return 2;
            case 2147483647:
                return 3;
            default:
                return 0;
        }
    }

    static int sparse(int a) {
        switch (a) {
            case -2147483648:
                return 1;
            case -1000000:
                return 2;
            case 7:
                return 3;
            case 100000:
                return 4;
            case 2147483647:
                return 5;
            default:
                return 0;
        }
    }

    // and begin at the least one
    static int least(int a) {
        switch (a) {
            case -2147483648:
                return 1;
            case -2147483647:
                return 2;
            default:
                return 0;
        }
    }

    static int none(int a) {
        switch (a) {
            default:
                return a + 1;
        }
    }

    // cases go on into the next one
    static int through(int a) {
        int sum = 0;
        switch (a) {
            case 1:
                sum += 1;
            case 2:
                sum += 2;
            case 3:
                sum += 4;
                break;
            default:
                sum = 100;
        }
        return sum;
    }

    static int pad1(int a) {
        switch (a) {
            case 0:
                return 1;
            case 1:
                return 2;
            default:
                return 3;
        }
    }

    static int pad2(int a, int b) {
        switch (a + b) {
            case 0:
                return 1;
            case 1:
                return 2;
            default:
                return 3;
        }
    }

    static int pad3(int a) {
        switch (a + 6) {
            case 0:
                return 1;
            case 1:
                return 2;
            default:
                return 3;
        }
    }

    static int pad4(int a, int b) {
        switch (-a + -b) {
            case 0:
                return 1;
            case 1000:
                return 2;
            default:
                return 3;
        }
    }
}
