// Classes, interfaces and arrays that a slot may be declared as, for the alternatives of its first read.
class H {
    S s;

    static int g(H h) {
        return h.s.area();
    }
}

abstract class S {
    abstract int area();
}

class A extends S {
    int area() {
        return 1;
    }
}

class B extends S {
    int area() {
        return 2;
    }
}

interface Shape {
}

interface Lonely {
}

abstract class Bare {
    abstract int none();
}

class Square implements Shape {
    boolean filled;
}

class Holder {
    int[][] rows;
    Shape[] shapes;
    Object object;
    Cloneable cloneable;
    java.io.Serializable serializable;
    Square square;

    static int of(Holder holder, Shape[] shapes) {
        return holder.rows.length + shapes.length;
    }
}
