/** A list of ints: its first int, and the list behind it. */
public class List {
    int elem;
    List next;

    /** Whether the int is in this list. */
    public boolean contains(int wanted) {
        List list = this;
        while (list != null) {
            if (list.elem == wanted) {
                return true;
            }
            list = list.next;
        }
        return false;
    }

    /** Puts the node into a list whose ints rise. The list then. */
    public static List insert(List list, List node) {
        List before = null;
        List behind = list;
        while (behind != null && behind.elem < node.elem) {
            before = behind;
            behind = behind.next;
        }
        node.next = behind;
        if (before == null) {
            return node;
        }
        before.next = node;
        return list;
    }

    /** Takes the first node with the int out of the list. The list then. */
    public static List remove(List list, int unwanted) {
        List before = null;
        List node = list;
        while (node != null && node.elem != unwanted) {
            before = node;
            node = node.next;
        }
        if (node == null) {
            return list;
        }
        if (before == null) {
            return node.next;
        }
        before.next = node.next;
        return list;
    }

    /** The list in the other order. */
    public static List reverse(List list) {
        List done = null;
        while (list != null) {
            List rest = list.next;
            list.next = done;
            done = list;
            list = rest;
        }
        return done;
    }

    /** The list with its first node behind its last one. */
    public static List rotate(List list) {
        if (list == null || list.next == null) {
            return list;
        }
        List first = list.next;
        List last = first;
        while (last.next != null) {
            last = last.next;
        }
        last.next = list;
        list.next = null;
        return first;
    }
}
