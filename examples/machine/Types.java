// checkcast and instanceof: each object against each type, one bit each.
class Types {
    static Object made(int which) {
        switch (which) {
            case 0:
                return null;
            case 1:
                return new Object();
            case 2:
                return new Animal();
            case 3:
                return new Cat();
            case 4:
                return new Stone();
            case 5:
                return new int[0];
            case 6:
                return new boolean[0];
            case 7:
                return new Animal[0];
            case 8:
                return new Cat[0];
            case 9:
                return new Object[0];
            case 10:
                return new int[0][];
            case 11:
                return new Named[0];
            case 12:
                return "text";
            case 13:
                return new IllegalStateException();
            default:
                return new Cat[0][];
        }
    }

    static int classes(int which) {
        Object o = made(which);
        int found = 0;
        if (o instanceof Object) {
            found |= 1;
        }
        if (o instanceof Animal) {
            found |= 2;
        }
        if (o instanceof Cat) {
            found |= 4;
        }
        if (o instanceof Named) {
            found |= 8;
        }
        if (o instanceof Called) {
            found |= 16;
        }
        if (o instanceof Cloneable) {
            found |= 32;
        }
        if (o instanceof java.io.Serializable) {
            found |= 64;
        }
        if (o instanceof String) {
            found |= 128;
        }
        if (o instanceof Comparable) {
            found |= 256;
        }
        if (o instanceof RuntimeException) {
            found |= 512;
        }
        return found;
    }

    static int arrays(int which) {
        Object o = made(which);
        int found = 0;
        if (o instanceof int[]) {
            found |= 1;
        }
        if (o instanceof boolean[]) {
            found |= 2;
        }
        if (o instanceof Object[]) {
            found |= 4;
        }
        if (o instanceof Animal[]) {
            found |= 8;
        }
        if (o instanceof Cat[]) {
            found |= 16;
        }
        if (o instanceof Named[]) {
            found |= 32;
        }
        if (o instanceof int[][]) {
            found |= 64;
        }
        if (o instanceof Cloneable[]) {
            found |= 128;
        }
        if (o instanceof java.io.Serializable[]) {
            found |= 256;
        }
        if (o instanceof Object[][]) {
            found |= 512;
        }
        if (o instanceof Animal[][]) {
            found |= 1024;
        }
        return found;
    }

    // the cast to the type of that number, which throws where it does not fit
    static Object cast(int which, int type) {
        Object o = made(which);
        switch (type) {
            case 0:
                return (Animal) o;
            case 1:
                return (Cat) o;
            case 2:
                return (Called) o;
            case 3:
                return (int[]) o;
            case 4:
                return (Object[]) o;
            case 5:
                return (Animal[]) o;
            case 6:
                return (Cloneable) o;
            case 7:
                return (java.io.Serializable) o;
            case 8:
                return (int[][]) o;
            default:
                return (String) o;
        }
    }
}

interface Called {
}

interface Named extends Called {
}

class Animal {
}

class Cat extends Animal implements Named {
}

class Stone implements Called {
}
