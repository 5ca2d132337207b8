abstract class Store implements Comparable<Store>, java.io.Serializable {
    private int count;
    protected static final boolean OPEN = true;
    Store[] next;
    long[][] table;

    Store(int size) {
        count = size;
        next = new Store[size];
    }

    abstract int[] sizes(String name, char[][] rows);

    public int compareTo(Store other) {
        return count - other.count;
    }

    static String text(Comparable<Store> left, Store right) {
        Object[] pair = new Object[2];
        pair[0] = "empty";
        try {
            if (left.compareTo(right) > 100000) {
                return "more";
            }
        } catch (RuntimeException thrown) {
            return null;
        }
        return pair instanceof Object[] ? "some" : null;
    }
}
