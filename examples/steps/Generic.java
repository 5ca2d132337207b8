// Containers of what is not known, with casts and instanceof, and string constants.
class Box<T> {
    T held;

    Box(T held) {
        this.held = held;
    }

    T get() {
        return held;
    }

    static Round taken(Box<Round> box) {
        return box.get();
    }

    static int size(Box<? extends Form> box) {
        return box.get().size();
    }
}

interface Form {
    int size();
}

class Round implements Form, Cloneable {
    int radius;

    @Override
    public int size() {
        return radius;
    }

    static int kind(Object object) {
        if (object instanceof Round) {
            return ((Round) object).radius;
        }
        if (object instanceof Form[]) {
            return ((Form[]) object).length;
        }
        return object instanceof Cloneable ? -1 : -2;
    }

    static String name(Object object) {
        String name = "none";
        if (object instanceof Form) {
            name = object instanceof Cloneable ? "round" : "form";
        }
        return name;
    }

    static boolean isNamed(Object object) {
        return name(object) == "round";
    }
}

class Plain implements Form {
    @Override
    public int size() {
        return 0;
    }
}
