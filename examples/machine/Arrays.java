// Arrays of ints, booleans and references, and what goes wrong with them.
class Arrays {
    // 1 + 2 + .. + a, by an array of that length
    static int sum(int a) {
        int[] numbers = new int[a];
        for (int i = 0; i < numbers.length; i++) {
            numbers[i] = i + 1;
        }
        int sum = 0;
        for (int number : numbers) {
            sum += number;
        }
        return sum;
    }

    static int length(int[] numbers) {
        return numbers.length;
    }

    static int lengthOf(int a) {
        return new int[a].length + 100 * new boolean[a].length + 10000 * new Arrays[a].length;
    }

    static int defaults() {
        int[] numbers = new int[1];
        boolean[] flags = new boolean[1];
        Object[] objects = new Object[1];
        return numbers[0] + (flags[0] ? 10 : 20) + (objects[0] == null ? 3 : 4);
    }

    static int load(int index) {
        int[] numbers = {3, 4, 5};
        return numbers[index];
    }

    static int store(int index) {
        int[] numbers = {3, 4, 5};
        numbers[index] = 7;
        return 100 * numbers[0] + 10 * numbers[1] + numbers[2];
    }

    static int loadBoolean(int index) {
        boolean[] flags = {true, false, true};
        return flags[index] ? 1 : 0;
    }

    static int storeBoolean(int index, boolean flag) {
        boolean[] flags = {true, false, true};
        flags[index] = flag;
        return (flags[0] ? 4 : 0) + (flags[1] ? 2 : 0) + (flags[2] ? 1 : 0);
    }

    static int loadReference(int index) {
        Object[] objects = {null, new int[5], null};
        Object found = objects[index];
        return found == null ? 0 : ((int[]) found).length;
    }

    static int storeReference(int index) {
        Object[] objects = new Object[3];
        objects[index] = objects;
        return objects[2] == objects ? 1 : 0;
    }

    static int nullInts(int[] numbers, int index) {
        return numbers[index];
    }

    static void storeNullInts(int[] numbers, int index) {
        numbers[index] = 1;
    }

    static boolean nullBooleans(boolean[] flags, int index) {
        return flags[index];
    }

    static void storeNullBooleans(boolean[] flags, int index) {
        flags[index] = true;
    }

    static Object nullReferences(Object[] objects, int index) {
        return objects[index];
    }

    static void storeNullReferences(Object[] objects, int index) {
        objects[index] = objects;
    }

    // the index and the value are computed before the array is looked at
    static void storeQuotient(int[] numbers, int a) {
        numbers[1 / a] = 2 / a;
    }

    static int[] ints(int length) {
        return new int[length];
    }

    static boolean[] booleans(int length) {
        return new boolean[length];
    }

    static Arrays[] references(int length) {
        return new Arrays[length];
    }

    static int[][] nested(int length) {
        return new int[length][];
    }

    // which object is stored into an array of which exact type: throws where it does not fit
    static int fits(int array, int value, int index) {
        Object[] objects = arrayOf(array);
        objects[index] = valueOf(value);
        return objects[index] == null ? 0 : 1;
    }

    static Object[] arrayOf(int which) {
        switch (which) {
            case 0:
                return new Object[2];
            case 1:
                return new Shape[2];
            case 2:
                return new Round[2];
            case 3:
                return new int[2][];
            case 4:
                return new Cloneable[2];
            case 5:
                return new Shape[2][];
            default:
                return new Disc[2];
        }
    }

    static Object valueOf(int which) {
        switch (which) {
            case 0:
                return null;
            case 1:
                return new Object();
            case 2:
                return new Round();
            case 3:
                return new Disc();
            case 4:
                return new int[1];
            case 5:
                return new Round[1];
            case 6:
                return new Object[1];
            default:
                return "text";
        }
    }

    static int nestedSum(int a) {
        int[][] rows = new int[3][];
        for (int i = 0; i < 3; i++) {
            rows[i] = new int[2];
            rows[i][1] = a + i;
        }
        return rows[0][1] + rows[1][1] + rows[2][1] + rows[0][0];
    }

    // dup2, dup_x2 and dup2_x1 as javac makes them
    static int changed(int a) {
        int[] numbers = new int[2];
        int index = 0;
        numbers[index++] += a;
        int old = numbers[0]++;
        numbers[1] = numbers[0] = numbers[0] + 1;
        return 10000 * old + 100 * numbers[0] + 10 * numbers[1] + index;
    }
}

interface Shape {
    int area();
}

class Round implements Shape {
    public int area() {
        return 3;
    }
}

class Disc extends Round {
    public int area() {
        return 4;
    }
}
