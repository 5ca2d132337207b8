// Lists, and the methods whose paths the tables of crates/picture_rows/data have.
class Node {
    int elem;
    Node next;

    static int m(Node one, Node other) {
        one.next = null;
        if (other.next != null) {
            return 0;
        }
        return 1;
    }

    boolean contains(int wanted) {
        for (Node node = this; node != null; node = node.next) {
            if (node.elem == wanted) {
                return true;
            }
        }
        return false;
    }

    static int get(int[] ints, int index) {
        return ints[index];
    }

    static int div(int one, int other) {
        return one / other;
    }

    static Node made(Node next) {
        Node node = new Node();
        node.next = next;
        return node;
    }

    static Node second(Node one, Node other) {
        return other;
    }

    static String text() {
        return "text";
    }

    static void flag(boolean[] flags) {
        flags[0] = true;
    }

    static void put(Node[] nodes, Node node) {
        nodes[1] = node;
    }

    static int count(Node node) {
        return node.elem++;
    }

    static void rethrow(RuntimeException exception) {
        throw exception;
    }

    static void fail() {
        RuntimeException exception = new IllegalStateException("text");
        Node node = new Node();
        throw exception;
    }
}

class Low extends Node {
}
