// Classes for the rows of crates/kiasan_rows: an interface, an abstract class and a class of it.
interface Shape {
    int area(int scale);
}

abstract class Base implements Shape {
    int side;

    Base() {
        side = 3;
    }

    String name() {
        return "base";
    }
}

final class Square extends Base {
    public int area(int scale) {
        return side * side * scale;
    }

    static int mix(int a, int b) {
        return a * b + 7;
    }
}

// Two classes below one, and one that holds such an object.
class H {
    S s;

    static int g(H h) {
        return h.s.area();
    }
}

abstract class S {
    abstract int area();
}

class A extends S {
    int area() {
        return 1;
    }
}

class B extends S {
    int area() {
        return 2;
    }
}
