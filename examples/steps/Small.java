/** Small methods over ints and booleans, each for what its steps show. */
class Small {
    /** A branch on an int. */
    static int abs(int x) {
        return x < 0 ? -x : x;
    }

    /** A division, whose divisor is 0 or not. */
    static int div(int x, int y) {
        return x / y;
    }

    /** A remainder by a constant: nothing is to be chosen. */
    static int last(int x) {
        return x % 10;
    }

    /** A loop: each turn is a transfer back. */
    static int count(int x) {
        int turns = 0;
        while (x > 0) {
            turns++;
            x = x - 1;
        }
        return turns;
    }

    /** A tableswitch from 1 to 4, of which 3 goes where the default goes. */
    static int table(int x) {
        switch (x) {
            case 1:
                return 10;
            case 2:
                return 20;
            case 4:
                return 40;
            default:
                return 0;
        }
    }

    /** A lookupswitch. */
    static int lookup(int x) {
        switch (x) {
            case -5:
                return 1;
            case 1000:
                return 2;
            default:
                return 3;
        }
    }

    /** The second condition stands already where the first is taken, and is decided as false where it is not. */
    static int again(int x, int y) {
        int result = 0;
        if (x == y) {
            result = 1;
        }
        if (x == y) {
            result = result + 2;
        }
        return result;
    }

    /** Booleans: an argument of its own kind, and a result that is 0 or 1. */
    static boolean both(boolean x, boolean y) {
        return x & y;
    }

    /** Narrowing and shifting. */
    static int narrow(int x) {
        return (byte) (x >> 3) + (char) x;
    }

    /** Nothing. */
    static void nothing() {
    }
}
