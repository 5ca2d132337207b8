/** Switches of both forms, nested handlers, and fields. */
class Switched {
    int last;
    static boolean isTold;

    int dense(int x) {
        switch (x) {
            case -1:
                return last;
            case 0:
            case 2:
                last = x;
                break;
            default:
                isTold = true;
        }
        return 0;
    }

    static int sparse(int x) {
        try {
            try {
                switch (x) {
                    case 1_000_000:
                        return 1;
                    case -7:
                        return 2;
                    default:
                        return 100 / x;
                }
            } catch (ArithmeticException e) {
                return 3;
            }
        } finally {
            isTold = false;
        }
    }
}
