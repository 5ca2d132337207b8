// Code over arrays as javac makes it: sorts, queues, matrices, a lexer.
class Sorted {
    static void bubble(int[] ints) {
        for (int end = ints.length - 1; end > 0; end--) {
            for (int i = 0; i < end; i++) {
                if (ints[i + 1] < ints[i]) {
                    int kept = ints[i];
                    ints[i] = ints[i + 1];
                    ints[i + 1] = kept;
                }
            }
        }
    }

    static int[] inserted(int[] ints, int value) {
        int[] longer = new int[ints.length + 1];
        int at = 0;
        while (at < ints.length && ints[at] < value) {
            longer[at] = ints[at];
            at++;
        }
        longer[at] = value;
        while (at < ints.length) {
            longer[at + 1] = ints[at];
            at++;
        }
        return longer;
    }

    static int count(boolean[] flags) {
        int count = 0;
        for (boolean flag : flags) {
            if (flag) {
                count++;
            }
        }
        return count;
    }

    static int trace(int[][] rows) {
        int sum = 0;
        for (int i = 0; i < rows.length; i++) {
            sum += rows[i][i];
        }
        return sum;
    }

    static int[][] identity(int size) {
        int[][] rows = new int[size][];
        for (int i = 0; i < size; i++) {
            rows[i] = new int[size];
            rows[i][i] = 1;
        }
        return rows;
    }
}

/** A queue over an array that goes round. */
class Ring {
    Object[] items;
    int first;
    int count;

    boolean put(Object item) {
        if (count == items.length) {
            return false;
        }
        items[(first + count) % items.length] = item;
        count++;
        return true;
    }

    static Object through(Object item) {
        Ring ring = new Ring();
        ring.items = new Object[1];
        ring.put(item);
        return ring.take();
    }

    Object take() {
        if (count == 0) {
            return null;
        }
        Object item = items[first];
        items[first] = null;
        first = (first + 1) % items.length;
        count--;
        return item;
    }
}

/** A lexer over ints: numbers, a sign for addition, nothing else. */
class Lexer {
    int[] text;
    int at;
    int number;

    int next() {
        if (at >= text.length) {
            return 0;
        }
        int sign = text[at];
        at++;
        switch (sign) {
            case '+':
                return 1;
            case '0':
            case '1':
                number = sign - '0';
                return 2;
            default:
                return -1;
        }
    }
}
