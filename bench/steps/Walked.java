// Methods that bench/steps.py times: what the steps of an exploration take. Ints are constants where nothing is to be chosen.
class Walked {
    int value;
    Walked next;

    // ---- ints and lists

    static int count() {
        int sum = 0;
        for (int i = 0; i < 900; i++) {
            sum += i;
        }
        return sum;
    }

    static int fields(Walked walked) {
        int sum = 0;
        for (int i = 0; i < 900; i++) {
            sum += walked.value;
        }
        return sum;
    }

    static int sum(Walked walked) {
        int sum = 0;
        while (walked != null) {
            sum += walked.value;
            walked = walked.next;
        }
        return sum;
    }

    // ---- calls: the frames of the names, and three calls in each turn

    static int down(int n) {
        return n == 0 ? 0 : 1 + down(n - 1);
    }

    static int frames2() {
        return down(0);
    }

    static int frames8() {
        return down(6);
    }

    static int frames32() {
        return down(30);
    }

    static int frames128() {
        return down(126);
    }

    static int frames256() {
        return down(254);
    }

    static int virtual() {
        Shape one = new Square();
        Shape other = new Disc();
        int sum = 0;
        for (int i = 0; i < 900; i++) {
            sum += one.area(i);
            Shape last = one;
            one = other;
            other = last;
        }
        return sum;
    }

    static int statics() {
        int sum = 0;
        for (int i = 0; i < 900; i++) {
            sum += same(i);
        }
        return sum;
    }

    private static int same(int i) {
        return i;
    }

    static Walked made() {
        Walked last = null;
        for (int i = 0; i < 900; i++) {
            Walked walked = new Walked();
            walked.next = last;
            last = walked;
        }
        return last;
    }

    // ---- arrays: an index and a length that are not known, and an element that is read again and again

    static int get(int[] ints, int i) {
        return ints[i];
    }

    static int length(int n) {
        return new int[n].length;
    }

    static int elements(int[] ints) {
        int sum = 0;
        for (int i = 0; i < 900; i++) {
            sum += ints[0];
        }
        return sum;
    }
}

abstract class Shape {
    abstract int area(int width);
}

class Square extends Shape {
    int area(int width) {
        return width * width;
    }
}

class Disc extends Shape {
    int area(int width) {
        return 3 * width;
    }
}

// exceptions: one in each turn that is taken where it is thrown, and one that passes the frames of the names
class Failing {
    static int tries() {
        int sum = 0;
        for (int i = 0; i < 450; i++) {
            try {
                sum += 10 / 0;
            } catch (ArithmeticException e) {
                sum++;
            }
        }
        return sum;
    }

    static int thrown(int n) {
        return n == 0 ? 1 / 0 : thrown(n - 1) + 1;
    }

    static int passes2() {
        try {
            return thrown(1);
        } catch (ArithmeticException e) {
            return -1;
        }
    }

    static int passes20() {
        try {
            return thrown(19);
        } catch (ArithmeticException e) {
            return -1;
        }
    }

    static int passes200() {
        try {
            return thrown(199);
        } catch (ArithmeticException e) {
            return -1;
        }
    }
}
