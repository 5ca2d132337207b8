// Methods that bench/machine.py times: virtual calls of a method that the receiver's class inherits. The classes Link1 to Link60
// are made by bench/machine.py: each extends the one before it and declares nothing.
class Calls {
    static int near(int times) {
        return calls(new Link1(), times);
    }

    static int far(int times) {
        return calls(new Link60(), times);
    }

    static int calls(Link0 link, int times) {
        int sum = 0;
        for (int i = 0; i < times; i++) {
            sum += turns(link);
        }
        return sum;
    }

    static int turns(Link0 link) {
        int sum = 0;
        for (int i = 0; i < 1000; i++) {
            sum += link.one();
        }
        return sum;
    }
}

class Link0 {
    int one() {
        return 1;
    }
}
