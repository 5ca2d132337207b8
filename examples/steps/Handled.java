// try, catch and finally as javac makes them, an exception of one's own, and a parser that throws out of recursion.
class Handled {
    int steps;

    int divided(int by) {
        try {
            steps++;
            return 10 / by;
        } catch (ArithmeticException e) {
            steps += 10;
            return -1;
        } finally {
            steps += 100;
        }
    }

    static int nested(int by, int more) {
        int sum = 0;
        try {
            try {
                sum += 1 / by;
            } finally {
                sum += 10 / more;
            }
        } catch (ArithmeticException e) {
            sum += 1000;
        }
        return sum;
    }

    static int rethrown(int by) {
        try {
            return 1 / by;
        } catch (ArithmeticException e) {
            throw new IllegalStateException();
        }
    }

    static int same(int by) {
        try {
            return 1 / by;
        } catch (RuntimeException e) {
            throw e;
        }
    }

    static int either(Handled handled, int by) {
        try {
            return handled.steps / by;
        } catch (NullPointerException | ArithmeticException e) {
            return -1;
        }
    }

    static int own(int code) {
        try {
            check(code);
            return 0;
        } catch (Failure failure) {
            return failure.code;
        }
    }

    static void check(int code) {
        if (code != 0) {
            throw new Failure(code);
        }
    }
}

class Failure extends RuntimeException {
    final int code;

    Failure(int code) {
        this.code = code;
    }
}

/** A parser of sums in brackets, over a list of tokens: 1 opens one, 2 closes it, 3 is a number. */
class Parser {
    Token rest;
    int at;

    static int parsed(Parser parser) {
        try {
            return parser.sum();
        } catch (Failure failure) {
            return -failure.code;
        }
    }

    int sum() {
        int sign = next();
        if (sign == 3) {
            return 1;
        }
        if (sign != 1) {
            throw new Failure(at);
        }
        int sum = sum();
        if (next() != 2) {
            throw new Failure(at);
        }
        return sum + 1;
    }

    int next() {
        if (rest == null) {
            throw new Failure(100);
        }
        int kind = rest.kind;
        rest = rest.rest;
        at++;
        return kind;
    }
}

class Token {
    int kind;
    Token rest;
}
