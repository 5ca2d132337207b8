// Calls of static, virtual, interface, private and super methods, and recursion.
class Calls {
    static int twice(int a) {
        return doubled(doubled(a));
    }

    private static int doubled(int a) {
        return 2 * a;
    }

    // the arguments keep their order
    static int ordered(int a, int b, int c) {
        return digits(a, b, c) - digits(c, b, a);
    }

    static int digits(int a, int b, int c) {
        return 100 * a + 10 * b + c;
    }

    static int mixed(int a) {
        return picked(a, null, true, new Calls(), "x");
    }

    static int picked(int a, Object none, boolean flag, Calls calls, String text) {
        return none == null && flag && calls != null && text != null ? a : -1;
    }

    static int inheritedStatic(int a) {
        return Lower.shared(a);
    }

    static int fact(int n) {
        return n == 0 ? 1 : n * fact(n - 1);
    }

    static int fib(int n) {
        return n < 2 ? n : fib(n - 1) + fib(n - 2);
    }

    static boolean even(int n) {
        return n == 0 || odd(n - 1);
    }

    static boolean odd(int n) {
        return n != 0 && even(n - 1);
    }

    // calls itself until a bound ends the run
    static int r(int n) {
        return n == 0 ? 0 : r(n - 1);
    }

    static Upper made(int which) {
        return which == 0 ? null : which == 1 ? new Upper() : which == 2 ? new Lower() : new Lowest();
    }

    static int virtual(int which, int a) {
        return made(which).open(a);
    }

    static int bySuper(int which, int a) {
        return made(which).up(a);
    }

    // a private method of the class above is not overridden
    static int hidden(int which, int a) {
        return made(which).callsHidden(a);
    }

    // a static method by a reference to the class
    static int fluent(int a) {
        return new Lower().set(a).set(a + 1).value;
    }

    static void set(Upper u, int a) {
        u.set(a);
    }

    static Does doer(int which) {
        return which == 0 ? null : which == 1 ? new DoesOne() : which == 2 ? new DoesMore() : new Inherits();
    }

    static int byInterface(int which, int a) {
        return doer(which).act(a);
    }

    static int byUpperInterface(int which, int a) {
        Acts acts = doer(which);
        return acts.act(a);
    }

    // the method is declared in the interface alone, and called in the class between
    static int byClassBetween(int a) {
        Between between = new Ends();
        return between.act(a);
    }

    static int byAbstract(int which, int a) {
        Part part = which == 0 ? null : which == 1 ? new Whole() : new Half();
        return part.total(a);
    }

    // the method of the superclass is declared above that
    static int farSuper(int a) {
        return new Lowest().far(a);
    }

    // the method above returns Upper: its bridge is called
    static int bridged(int a) {
        Upper u = new Lowest();
        return u.itself().open(a);
    }

    static boolean negated(boolean a) {
        return not(not(not(a)));
    }

    static boolean not(boolean a) {
        return !a;
    }
}

class Upper {
    int value;

    static int shared(int a) {
        return a + 1000;
    }

    int open(int a) {
        return a + 1;
    }

    int up(int a) {
        return a + 10;
    }

    private int hide(int a) {
        return a + 100;
    }

    int callsHidden(int a) {
        return hide(a);
    }

    Upper set(int a) {
        value = value * 10 + a;
        return this;
    }

    Upper itself() {
        return this;
    }
}

class Lower extends Upper {
    int open(int a) {
        return a + 2;
    }

    int up(int a) {
        return super.up(a) + 20;
    }

    int hide(int a) {
        return a + 200;
    }
}

class Lowest extends Lower {
    int up(int a) {
        return super.up(a) + super.open(a);
    }

    int far(int a) {
        return super.callsHidden(a);
    }

    Lowest itself() {
        return new Lowest();
    }
}

interface Acts {
    int act(int a);
}

interface Does extends Acts {
}

class DoesOne implements Does {
    public int act(int a) {
        return a + 1;
    }
}

class DoesMore extends DoesOne {
    public int act(int a) {
        return super.act(a) * 2;
    }
}

class HasAct {
    public int act(int a) {
        return a + 5;
    }
}

// the method comes from the class above, which does not implement the interface
class Inherits extends HasAct implements Does {
}

abstract class Between implements Acts {
}

class Ends extends Between {
    public int act(int a) {
        return a + 7;
    }
}

abstract class Part {
    abstract int share(int a);

    int total(int a) {
        return 3 * share(a);
    }
}

class Whole extends Part {
    int share(int a) {
        return a;
    }
}

class Half extends Part {
    int share(int a) {
        return a / 2;
    }
}
