// A straight method beside string literals, which stand in the heaps of its runs.
class Literals {
    static String first() {
        return "x";
    }

    static String second() {
        return "y";
    }

    static int sum(int a, int b) {
        return a + b;
    }
}
