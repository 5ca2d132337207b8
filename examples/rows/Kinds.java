package shop;

abstract class Kinds implements Runnable, Comparable<Kinds> {
    static final long LIMIT = 5L;
    int[][] table;
    String name;
    Object name2;
    private boolean set;

    int name(int first, long second, String[] third) { return first; }
    int name(int first) { return first + 1; }
    String name() { return name + LIMIT; }
    abstract void end();
    public void run() { Object copy = table.clone(); set = copy instanceof int[][]; end(); }
    public int compareTo(Kinds other) { return other.name(table[0][0], LIMIT, new String[2]); }
}
