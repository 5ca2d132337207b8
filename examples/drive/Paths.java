/** Small methods over ints and booleans, each for what an exploration lists of it. */
class Paths {
    /** Nothing is to be chosen, and nobody is asked. */
    static int sum(int x, int y) {
        return x + y;
    }

    /** Two paths. */
    static int abs(int x) {
        if (x >= 0) {
            return x;
        }
        return -x;
    }

    /** No square is 3 modulo 4: a path without an input, which unit propagation alone does not see. */
    static int sq(int x) {
        if (x * x == 3) {
            return 1;
        }
        return 0;
    }

    /** A divisor that is 0 or not. */
    static int div(int x, int y) {
        return x / y;
    }

    /** A transfer to itself. */
    static void spin() {
        while (true) {
        }
    }

    /** A switch. */
    static int pick(int x) {
        switch (x) {
            case 5:
                return 50;
            case 7:
                return 70;
            default:
                return 0;
        }
    }

    /** A switch on an int of which it is known already which key it is. */
    static int twice(int x) {
        switch (x) {
            case 5:
                switch (x) {
                    case 5:
                        return 1;
                    case 7:
                        return 2;
                    default:
                        return 3;
                }
            case 7:
                return 4;
            default:
                return 5;
        }
    }

    /** A boolean. */
    static int flag(boolean x) {
        return x ? 10 : 20;
    }

    /** A loop: each turn is a transfer back. */
    static int count(int x) {
        int turns = 0;
        while (x > 0) {
            turns++;
            x = x - 1;
        }
        return turns;
    }

    /** The second comparison is the first one again. */
    static int again(int x, int y) {
        int result = 0;
        if (x == y) {
            result = 1;
        }
        if (x == y) {
            result = result + 2;
        }
        return result;
    }

    /** Two products of which neither is 3, whatever the ints are. */
    static int squares(int x, int y) {
        if (x * x == 3) {
            return 1;
        }
        if (y * y == 3) {
            return 2;
        }
        return 0;
    }

    /** A switch of which 0 is a key. */
    static int zero(int x) {
        switch (x) {
            case 0:
                return 1;
            case 3:
                return 2;
            default:
                return 3;
        }
    }

    /** A switch of which 0 is the last key. */
    static int near(int x) {
        switch (x) {
            case -1:
                return 1;
            case 0:
                return 2;
            default:
                return 3;
        }
    }

    /** The int that meets the first comparison meets the next two. */
    static int deep(int x) {
        if (x == 9) {
            if (x > 3) {
                if (x < 20) {
                    return 1;
                }
                return 2;
            }
            return 3;
        }
        return 4;
    }

    /** Two comparisons of which none says anything of the other. */
    static int signs(int a, int b) {
        int set = 0;
        if (a < 0) {
            set = set + 1;
        }
        if (b < 0) {
            set = set + 2;
        }
        return set;
    }

    /** Three such comparisons. */
    static int signs(int a, int b, int c) {
        int set = 0;
        if (a < 0) {
            set = set + 1;
        }
        if (b < 0) {
            set = set + 2;
        }
        if (c < 0) {
            set = set + 4;
        }
        return set;
    }

    /** Six such comparisons. */
    static int signs(int a, int b, int c, int d, int e, int f) {
        int set = 0;
        if (a < 0) {
            set = set + 1;
        }
        if (b < 0) {
            set = set + 2;
        }
        if (c < 0) {
            set = set + 4;
        }
        if (d < 0) {
            set = set + 8;
        }
        if (e < 0) {
            set = set + 16;
        }
        if (f < 0) {
            set = set + 32;
        }
        return set;
    }
}
