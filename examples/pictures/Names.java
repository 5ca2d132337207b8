// Objects that go by several names, and the methods whose states the table of crates/state_rows/data makes.
class Names {
    Names left;
    Names right;

    static Names twice(Names one) {
        Names two = one;
        one.left = null;
        return two;
    }

    static Names shared(Names one) {
        Names held = one.left;
        one.right = held;
        held.left = one;
        return one.right;
    }

    static Names overwritten(Names one) {
        Names held = one.left;
        one.left = null;
        return held;
    }

    static Names made(Names one) {
        Names pair = new Names();
        pair.left = one;
        one.right = null;
        return pair;
    }

    static Names alias(Names one, Names other) {
        one.left = one;
        return other.left;
    }
}
