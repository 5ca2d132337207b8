/** Small methods over a heap, each for what its steps show. */
class Cells {
    int number;
    boolean flag;
    Cells next;

    /** A reference is compared with null, and a field is read. */
    static int first(Cells cells) {
        return cells == null ? 0 : cells.number;
    }

    /** What is written through one name shows through another. */
    static int written(Cells one, Cells other) {
        one.number = 5;
        return other.number;
    }

    /** A receiver, and a reference that is read. */
    Cells second() {
        return next;
    }

    /** References that are compared, and a field that is written and read again. */
    static boolean same(Cells one, Cells other) {
        one.next = other;
        return one.next == one;
    }

    /** A field that is written with its own value is written. */
    void again() {
        next = next;
    }

    /** A boolean that is turned over. */
    boolean turn() {
        flag = !flag;
        return flag;
    }

    /** An array is a reference like any other. */
    static int[] array(int[] ints) {
        return ints;
    }

    /** Null has no field. */
    static void fails() {
        Cells none = null;
        none.number = 1;
    }
}
