// Exceptions of the machine, each caught where it is thrown and in the caller.
class Failing {
    static int outside(int[] ints, int i) {
        try {
            return ints[i];
        } catch (ArrayIndexOutOfBoundsException e) {
            return -1;
        }
    }

    static int element(int[] ints, int i) {
        return ints[i];
    }

    static int outsideBelow(int[] ints, int i) {
        try {
            return element(ints, i);
        } catch (IndexOutOfBoundsException e) {
            return -1;
        } catch (NullPointerException e) {
            return -2;
        }
    }

    static int stored(Object[] objects, Object object) {
        try {
            objects[0] = object;
            return 0;
        } catch (ArrayStoreException e) {
            return -1;
        }
    }

    static void put(Object[] objects, Object object) {
        objects[0] = object;
    }

    static int storedBelow(Object[] objects, Object object) {
        try {
            put(objects, object);
            return 0;
        } catch (ArrayStoreException e) {
            return -1;
        }
    }

    static int negative(int size) {
        try {
            return new int[size].length;
        } catch (NegativeArraySizeException e) {
            return -1;
        }
    }

    static int[] sized(int size) {
        return new int[size];
    }

    static int negativeBelow(int size) {
        try {
            return sized(size).length;
        } catch (NegativeArraySizeException e) {
            return -1;
        }
    }

    static int cast(Object object) {
        try {
            return ((Failing) object).number;
        } catch (ClassCastException e) {
            return -1;
        }
    }

    static Failing failing(Object object) {
        return (Failing) object;
    }

    static int castBelow(Object object) {
        try {
            return failing(object).number;
        } catch (ClassCastException e) {
            return -1;
        } catch (RuntimeException e) {
            return -2;
        }
    }

    static int either(Failing failing, int by) {
        try {
            return failing.number / by;
        } catch (NullPointerException | ArithmeticException e) {
            return e instanceof ArithmeticException ? -1 : -2;
        }
    }

    int number;

    /** Arrays of this class are named. */
    static Failing[] none() {
        return null;
    }
}
