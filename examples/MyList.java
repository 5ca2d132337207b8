/** A list of ints. */
public class MyList {
    static class Node { int elem; Node next; }
    Node head;

    /** Takes the last node off. */
    void removeLast() {
        Node node = head;
        while (node.next.next != null) node = node.next;
        node.next = null;
    }
}
