// Fields of ints, booleans and references: inherited, hidden, on null, and beside a field that has no slot.
class Base {
    int number = 1;
    boolean flag;
    Base next;

    int base() {
        return number;
    }
}

class Sub extends Base {
    // hides the one of Base
    int number = 2;
    long pad;
    int after;

    int both() {
        return 10 * number + super.number;
    }
}

class Fields {
    static int defaults() {
        Sub s = new Sub();
        return (s.flag ? 1 : 0) + (s.next == null ? 2 : 0) + (s.after == 0 ? 4 : 0);
    }

    static int ints(int a) {
        Base b = new Base();
        b.number = a;
        b.number += 3;
        return b.number++ * 1000 + b.number;
    }

    static int booleans(boolean a) {
        Base b = new Base();
        b.flag = a;
        return b.flag ? 7 : 8;
    }

    static boolean turned(boolean a) {
        Base b = new Base();
        b.flag = !a;
        return b.flag;
    }

    static int references(int a) {
        Base first = new Base();
        Base second = new Base();
        first.next = second;
        second.next = first;
        first.next.number = a;
        return first.next.next == first ? second.number : -1;
    }

    static int inherited(int a) {
        Sub s = new Sub();
        s.flag = true;
        s.next = s;
        s.after = a;
        Base b = s;
        return b.flag && b.next == s ? s.after : -1;
    }

    // the type of the expression says which of the two fields it is
    static int hidden(int a) {
        Sub s = new Sub();
        s.number = a;
        ((Base) s).number = 5;
        return 100 * s.both() + 10 * s.base() + ((Base) s).number;
    }

    static int getOnNull(Base b) {
        return b.number;
    }

    static void putOnNull(Base b, int a) {
        b.number = a;
    }

    // the operands are computed before the object is looked at
    static void putQuotientOnNull(Base b, int a) {
        b.number = a / 0;
    }

    static int walk(int a) {
        Base list = null;
        for (int i = 0; i < a; i++) {
            Base b = new Base();
            b.number = i;
            b.next = list;
            list = b;
        }
        int sum = 0;
        while (list != null) {
            sum = 10 * sum + list.number;
            list = list.next;
        }
        return sum;
    }

    static Base made(int a) {
        return a == 0 ? null : a == 1 ? new Base() : new Sub();
    }
}
