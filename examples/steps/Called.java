// Calls as javac makes them: constructors, super calls, private and static methods, abstract classes and interfaces.
abstract class Figure {
    int width;

    Figure(int width) {
        this.width = width;
    }

    abstract int area();

    int twice() {
        return area() + area();
    }

    /** Of two figures the one of the greater area. */
    static Figure greater(Figure one, Figure other) {
        return one.area() < other.area() ? other : one;
    }
}

class Strip extends Figure {
    Strip(int width) {
        super(width);
    }

    @Override
    int area() {
        return width;
    }

    static int made(int width) {
        return new Strip(width).twice();
    }
}

class Board extends Strip {
    boolean isDouble;

    Board(int width, boolean isDouble) {
        super(width + 1);
        this.isDouble = isDouble;
    }

    Board(int width) {
        this(width, true);
    }

    @Override
    int area() {
        return isDouble ? 2 * super.area() : super.area();
    }

    private int hidden(int more) {
        return more + width;
    }

    int shown(Board other) {
        return hidden(1) + other.hidden(2);
    }

    static Board doubled(int width) {
        return new Board(width);
    }
}

interface Counter {
    int next();
}

interface Resettable extends Counter {
    void reset();
}

class Steps implements Resettable {
    int at;

    @Override
    public int next() {
        at = at + 1;
        return at;
    }

    @Override
    public void reset() {
        at = 0;
    }
}

class Jumps extends Steps {
    @Override
    public int next() {
        super.next();
        return super.next();
    }

    static int both(Counter counter) {
        return counter.next() + counter.next();
    }

    static int again(Resettable counter) {
        counter.reset();
        return counter.next();
    }

    static boolean same(Counter one, Counter other) {
        return one.equals(other);
    }
}

/** A class with private members of a class inside it: javac writes methods for them. */
class Outer {
    private int secret;
    private Inner inner;

    class Inner {
        int twice() {
            return secret + tell();
        }
    }

    private int tell() {
        return secret;
    }

    int ask(int value) {
        secret = value;
        inner = new Inner();
        return inner.twice();
    }
}

/** A field that is found in the class above, and a static method of it. */
class Account {
    int sum;

    static int limit(int value) {
        return value > 9 ? 9 : value;
    }

    Account put(int value) {
        sum = sum + limit(value);
        return this;
    }
}

class Savings extends Account {
    int moved(Savings other, int value) {
        other.put(value).put(1);
        sum = sum - Savings.limit(value);
        return other.sum;
    }
}
