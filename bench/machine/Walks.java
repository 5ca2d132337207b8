// Methods that bench/machine.py times, by the machine and by `java -Xint`. A run has at most 100,000 instructions, and an
// activation goes back at most 1,000 times.
class Walks {
    static int array(int times) {
        int[] numbers = filled();
        int sum = 0;
        for (int i = 0; i < times; i++) {
            sum += sumOf(numbers);
        }
        return sum;
    }

    static int[] filled() {
        int[] numbers = new int[1000];
        for (int i = 0; i < numbers.length; i++) {
            numbers[i] = i;
        }
        return numbers;
    }

    static int sumOf(int[] numbers) {
        int sum = 0;
        for (int i = 0; i < numbers.length; i++) {
            sum += numbers[i];
        }
        return sum;
    }

    static int list(int times) {
        Node first = listed();
        int sum = 0;
        for (int i = 0; i < times; i++) {
            sum += first.sum();
        }
        return sum;
    }

    static Node listed() {
        Node first = null;
        for (int i = 0; i < 1000; i++) {
            Node node = new Node();
            node.elem = i;
            node.next = first;
            first = node;
        }
        return first;
    }

    static int fib(int n) {
        return n < 2 ? n : fib(n - 1) + fib(n - 2);
    }

    static int virtual(int times) {
        Shape square = new Square();
        Shape disc = new Disc();
        int sum = 0;
        for (int i = 0; i < times; i++) {
            sum += areas(square, disc);
        }
        return sum;
    }

    static int areas(Shape first, Shape second) {
        int sum = 0;
        for (int i = 0; i < 1000; i++) {
            sum += first.area() - second.area();
        }
        return sum;
    }
}

class Node {
    int elem;
    Node next;

    int sum() {
        int sum = 0;
        Node node = this;
        while (node != null) {
            sum += node.elem;
            node = node.next;
        }
        return sum;
    }
}

abstract class Shape {
    int side = 3;

    abstract int area();
}

class Square extends Shape {
    int area() {
        return side * side;
    }
}

class Disc extends Shape {
    int area() {
        return side * 3;
    }
}
