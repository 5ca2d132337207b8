/** A list of ints, and what changes its links. */
class Node {
    int elem;
    Node next;

    /** Puts this node behind the one that follows it, where the two are in falling order. */
    Node swapNode() {
        if (next != null && elem > next.elem) {
            Node first = next;
            next = first.next;
            first.next = this;
            return first;
        }
        return this;
    }

    /** The list in the other order. */
    static Node reversed(Node list) {
        Node done = null;
        while (list != null) {
            Node rest = list.next;
            list.next = done;
            done = list;
            list = rest;
        }
        return done;
    }

    /** A node more at the front. */
    Node pushed(int number) {
        Node front = new Node();
        front.elem = number;
        front.next = this;
        return front;
    }

    /** The first of several, which names their array's type. */
    static Node first(Node[] nodes) {
        return nodes[0];
    }

    /** The element so many nodes further on. */
    int at(int place) {
        return place == 0 ? elem : next.at(place - 1);
    }
}
