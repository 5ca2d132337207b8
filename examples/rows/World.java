// Classes for the rows of crates/kb_world_rows: fields, of which some have slots, and string constants.
class H {
    S s;

    Object b() {
        return "b";
    }

    Object a() {
        return "a";
    }
}

abstract class S {
    int size;

    abstract int area();
}

class A extends S {
    static int count;
    long wide;
    boolean flag;

    int area() {
        return size;
    }
}

class B extends S {
    int area() {
        return 0;
    }

    Object b() {
        return "b";
    }
}
