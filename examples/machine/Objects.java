// new, constructors, identity, and string literals.
class Objects {
    static Object plain() {
        return new Object();
    }

    // the constructors above run first
    static int constructed(int a) {
        return new Third(a).sum;
    }

    static int chosen(int a) {
        return new Third().sum + new Third(a, a).sum;
    }

    // in the constructor above a method of the class below already runs, over fields that are not set yet
    static int early() {
        Late late = new Late();
        return 100 * late.seen + late.given;
    }

    static int identity() {
        Object first = new Object();
        Object second = new Object();
        Object third = first;
        int found = 0;
        if (first == second) {
            found |= 1;
        }
        if (first == third) {
            found |= 2;
        }
        if (first != second) {
            found |= 4;
        }
        if (first.equals(second)) {
            found |= 8;
        }
        if (first.equals(third)) {
            found |= 16;
        }
        if (first.equals(null)) {
            found |= 32;
        }
        return found;
    }

    static boolean arrayEquals(int a) {
        int[] first = new int[a];
        int[] second = new int[a];
        return first.equals(first) && !first.equals(second) && !first.equals(null);
    }

    static boolean equalsOnNull(Object o) {
        return o.equals(o);
    }

    // a method of the class, through a reference to Object
    static int ownEquals(int a, int b) {
        Object first = new Money(a);
        Object second = new Money(b);
        return (first.equals(second) ? 1 : 0) + (first.equals(new Object()) ? 2 : 0) + (first == second ? 4 : 0);
    }

    static int nulls(Object o, Object other) {
        int found = 0;
        if (o == null) {
            found |= 1;
        }
        if (o != null) {
            found |= 2;
        }
        if (o == other) {
            found |= 4;
        }
        if (o != other) {
            found |= 8;
        }
        return found;
    }

    static int literals() {
        Object first = "one";
        Object same = "one";
        Object other = "two";
        Object elsewhere = Money.one();
        Object far = Money.two();
        int here = (first == same ? 1 : 0) + (first == other ? 2 : 0);
        return here + (first == elsewhere ? 4 : 0) + (other == far ? 8 : 0) + ("".equals("") ? 16 : 0);
    }

    static boolean literalEquals() {
        return "one".equals("one") && !"one".equals("two");
    }

    static Object literal() {
        return "one";
    }
}

class First {
    int sum;

    First(int a) {
        sum = sum * 10 + a;
    }
}

class Second extends First {
    Second(int a) {
        super(a);
        sum = sum * 10 + a + 1;
    }
}

class Third extends Second {
    Third(int a) {
        super(a);
        sum = sum * 10 + a + 2;
    }

    Third(int a, int b) {
        this(a + b);
        sum = sum * 10;
    }

    Third() {
        this(1, 1);
        sum = sum * 10 + 5;
    }
}

class Early {
    int seen;

    Early() {
        seen = own();
    }

    int own() {
        return 1;
    }
}

class Late extends Early {
    int given = 7;

    int own() {
        return given + 5;
    }
}

class Money {
    int amount;

    Money(int amount) {
        this.amount = amount;
    }

    public boolean equals(Object other) {
        return other instanceof Money && ((Money) other).amount == amount;
    }

    static Object one() {
        return "one";
    }

    static Object two() {
        return "two";
    }
}
