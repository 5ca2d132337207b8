// athrow, handlers, finally, and exceptions that go through several frames.
class Throws {
    static int thrown(int a) {
        if (a < 0) {
            throw new IllegalArgumentException("below 0");
        }
        return a;
    }

    static int throwNull() {
        RuntimeException none = null;
        throw none;
    }

    static int caught(int a) {
        try {
            return 10 / a;
        } catch (ArithmeticException e) {
            return -1;
        }
    }

    // by a class above the one that is thrown
    static int caughtAbove(int which) {
        try {
            return raise(which);
        } catch (IndexOutOfBoundsException e) {
            return 1;
        } catch (RuntimeException e) {
            return 2;
        } catch (Throwable e) {
            return 3;
        }
    }

    static int raise(int which) {
        switch (which) {
            case 0:
                return new int[] {}[0];
            case 1:
                return 1 / (which - 1);
            case 2:
                throw new Error("error");
            case 3:
                throw new Mine(5);
            case 4:
                throw new java.util.NoSuchElementException();
            case 5:
                throw new UnsupportedOperationException();
            default:
                return which;
        }
    }

    static int notCaught(int which) {
        try {
            return raise(which);
        } catch (ArrayStoreException e) {
            return 1;
        } catch (Error e) {
            return 2;
        }
    }

    static int either(int which) {
        try {
            return raise(which);
        } catch (ArithmeticException | Error e) {
            return 1;
        }
    }

    static int own(int a) {
        try {
            throw new Mine(a);
        } catch (Mine e) {
            return e.code() * 10 + (e.getMessage() == "mine" ? 1 : 0);
        }
    }

    static Object caughtItself(int which) {
        try {
            raise(which);
            return null;
        } catch (RuntimeException e) {
            return e;
        }
    }

    static int nested(int which) {
        int seen = 0;
        try {
            try {
                seen = raise(which);
            } catch (ArithmeticException e) {
                seen = 1;
            }
            seen += 10;
        } catch (IndexOutOfBoundsException e) {
            seen += 100;
        }
        return seen;
    }

    static int rethrown(int which) {
        try {
            try {
                return raise(which);
            } catch (RuntimeException e) {
                throw e;
            }
        } catch (Mine e) {
            return e.code();
        }
    }

    static int another(int which) {
        try {
            return raise(which);
        } catch (IndexOutOfBoundsException e) {
            throw new IllegalStateException();
        }
    }

    static int inHandler(int a) {
        try {
            return 1 / a;
        } catch (ArithmeticException e) {
            return 2 / a;
        }
    }

    static int withFinally(int which) {
        int seen = 0;
        try {
            seen += raise(which);
        } catch (ArithmeticException e) {
            seen += 20;
        } finally {
            seen += 300;
        }
        return seen;
    }

    // the result is computed before the finally
    static int returnBeforeFinally(int a) {
        int[] seen = new int[1];
        return returned(seen, a) * 100 + seen[0];
    }

    static int returned(int[] seen, int a) {
        int kept = a;
        try {
            return kept;
        } finally {
            kept = 50;
            seen[0] = kept;
        }
    }

    @SuppressWarnings("finally")
    static int finallyReturns(int which) {
        try {
            return raise(which);
        } finally {
            return 9;
        }
    }

    @SuppressWarnings("finally")
    static int finallyThrows(int which) {
        try {
            return raise(which);
        } finally {
            throw new IllegalStateException();
        }
    }

    static int throughFrames(int which) {
        return 1 + middle(which);
    }

    static int middle(int which) {
        try {
            return 1 + raise(which);
        } catch (ArithmeticException e) {
            return 500;
        }
    }

    static int caughtByCaller(int which) {
        int seen = 3;
        try {
            seen = throughFrames(which);
        } catch (Mine e) {
            seen = seen * 10 + e.code();
        }
        return seen;
    }

    static int inLoop(int a) {
        int seen = 0;
        for (int i = 0; i < a; i++) {
            try {
                seen += 12 / (i - 1);
            } catch (ArithmeticException e) {
                seen += 100;
            }
        }
        return seen;
    }

    static int byConstructor(int a) {
        try {
            return new Refuses(a).kept;
        } catch (Mine e) {
            return -e.code();
        }
    }

    static int castCaught(int a) {
        Object o = a == 0 ? new Error() : new Mine(a);
        try {
            return ((Mine) o).code();
        } catch (ClassCastException e) {
            return -1;
        }
    }

    static int sizeCaught(int a) {
        try {
            return new int[a].length;
        } catch (NegativeArraySizeException e) {
            return -1;
        }
    }
}

class Mine extends RuntimeException {
    int code;

    Mine(int code) {
        super("mine");
        this.code = code;
    }

    int code() {
        return code;
    }

    public String getMessage() {
        return "mine";
    }
}

class Refuses {
    int kept;

    Refuses(int a) {
        if (a < 0) {
            throw new Mine(a);
        }
        kept = a;
    }
}
