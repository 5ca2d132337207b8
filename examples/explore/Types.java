// Methods for what a reference may be: several classes, arrays, fields of one name, types that nothing is of.
abstract class Figure {
    int width;
    boolean isFilled;
    Figure inside;

    /** An abstract class has a receiver of a class below it. */
    Figure inner() {
        return inside == null ? this : inside;
    }

    /** Turns the filling over. */
    boolean fill() {
        isFilled = !isFilled;
        return isFilled;
    }

    /** The greater width, kept in both. */
    static int widen(Figure one, Figure other) {
        if (one.width < other.width) {
            one.width = other.width;
        } else {
            other.width = one.width;
        }
        return one.width;
    }
}

class Disc extends Figure {
    int width;

    /** The field of the class above it has the same name. */
    int both() {
        int sum = width + super.width;
        super.width = 0;
        return sum;
    }
}

class Box extends Figure {
    int[] sizes;
    boolean[] flags;
    Figure[] parts;
    Object any;
    Comparable<Box> none;

    /** An array of ints, whose elements are not looked at. */
    int[] sizes() {
        return sizes;
    }

    /** Anything may be the box itself, an array or an exception. */
    static boolean isAny(Box box, Object other) {
        return box.any == other;
    }

    /** Arrays of figures, and what may be where one is declared. */
    static Object parts(Box box, Box[] boxes) {
        box.parts = boxes;
        return box.parts;
    }

    /** No class that is given implements this interface. */
    boolean isNone() {
        return none == null;
    }

    static boolean same(int[] one, int[] other) {
        return one == other;
    }

    static boolean different(boolean[] one, boolean[] other) {
        return one != other;
    }

    static Exception caught(Exception one, RuntimeException other) {
        return one == other ? one : null;
    }
}

abstract class Bare {
    int count;

    /** No object has a class of this kind. */
    int next() {
        count = count + 1;
        return count;
    }
}
