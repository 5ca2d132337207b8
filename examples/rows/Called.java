// Methods for the rows of crates/kiasan_rows: which methods a call reaches, told by the one that cannot be carried out.
interface Top {
    int high(int a);
}

interface Low extends Top {
    int low(int a);
}

abstract class Upper {
    Upper() {
    }

    Upper(int a) {
        float f = a;
    }

    int over(int a) {
        float f = a;
        return 1;
    }

    abstract int made(int a);
}

class Lower extends Upper implements Low {
    Lower() {
    }

    Lower(int a) {
        super(a);
    }

    int over(int a) {
        return super.over(a);
    }

    int made(int a) {
        float f = a;
        return 2;
    }

    public int high(int a) {
        float f = a;
        return 3;
    }

    public int low(int a) {
        return own(a);
    }

    private int own(int a) {
        float f = a;
        return 4;
    }
}

class Fine extends Upper implements Low {
    int over(int a) {
        return a;
    }

    int made(int a) {
        return a;
    }

    public int high(int a) {
        return a;
    }

    public int low(int a) {
        return a;
    }
}

class Started {
    static int begun;

    static {
        begun = 1;
    }

    static int plain(int a) {
        return a;
    }

    static int wide(long a) {
        return 1;
    }

    int instance(int a) {
        return a;
    }
}

class Below extends Started {
}

class Called {
    static byte takesByte(byte a) {
        return a;
    }

    static int callsByte(int a) {
        return takesByte((byte) a);
    }

    static long gives(int a) {
        return 1;
    }

    // The first is reached before the second, and the third behind both.
    static int queue(int a) {
        return first(a) + second(a);
    }

    static int first(int a) {
        return third(a);
    }

    static int second(int a) {
        float f = a;
        return 1;
    }

    static int third(int a) {
        float f = a;
        return 1;
    }

    static int byInterface(Low l) {
        return l.high(1);
    }

    static int byClass(Upper u) {
        return u.made(1);
    }

    static int bySuper(Lower l) {
        return l.over(1);
    }

    static int byPrivate(Lower l) {
        return l.low(1);
    }

    static Object byConstructor() {
        return new Lower(1);
    }

    static Object byFine() {
        return new Fine();
    }

    static int fine(Fine f) {
        return f.over(1) + f.made(1) + f.high(1) + f.low(1);
    }

    static int inherited(int a) {
        return Below.plain(a);
    }

    static Object arrays() {
        Object a = new int[2];
        return new boolean[2];
    }

    static int constant() {
        return 100000;
    }

    static int length(int[] a) {
        return a.length;
    }

    static boolean sameArray(int[] a) {
        return a.equals(a);
    }
}
