// Methods for the rows of crates/kiasan_rows: each reaches something else.
class Ready {
    static int start;

    static {
        start = 4;
    }

    static int twice(int a) {
        return a + a;
    }
}

class Heir extends Ready {
    static int same(int a) {
        return a;
    }
}

class Gone {
    int kept;
    int lost;

    static int lost(int a) {
        return a;
    }
}

interface Sized {
    int size();
}

class Pair<T extends Comparable<T>> implements Comparable<Pair<T>>, Sized {
    T first;
    long wide;

    public int compareTo(Pair<T> other) {
        return size() - other.size();
    }

    public int size() {
        return own(2);
    }

    private int own(int a) {
        return a + 1;
    }
}

class Reached {
    // Twice a recursion.
    static int even(int n) {
        return n == 0 ? 1 : odd(n - 1);
    }

    static int odd(int n) {
        return n == 0 ? 0 : even(n - 1);
    }

    // A bridge, an interface and a private method.
    static int compared(Pair<Integer> one, Pair<Integer> other) {
        return one.compareTo(other) + ((Sized) one).size();
    }

    static int opcode(int a) {
        float b = a;
        return 1;
    }

    static int constant() {
        Object c = Reached.class;
        return 1;
    }

    static int bytes() {
        byte[] b = new byte[3];
        return 1;
    }

    static int takes(long a) {
        return 1;
    }

    static int wide(Pair<Integer> p) {
        return takesWide(p.wide);
    }

    static int takesWide(long a) {
        return 1;
    }

    static int hash(Object o) {
        return o.hashCode();
    }

    static native int far(int a);

    static int calls(int a) {
        return far(a);
    }

    static int same(Object a, Object b) {
        return a.equals(b) ? 1 : 0;
    }

    static int later(int a) {
        return even(a) + hash(null);
    }

    static Object made() {
        return new Ready();
    }

    static Object heirs() {
        return new Heir[2];
    }

    static int heir(int a) {
        return Heir.same(a);
    }

    static Object gone() {
        return new Gone();
    }

    static int field(Gone g) {
        return g.kept + g.lost;
    }

    static int goneCall(int a) {
        return Gone.lost(a);
    }

    static boolean cast(Object o) {
        return o instanceof Gone[];
    }

    static Object thrown() {
        return new IllegalStateException("x");
    }
}
