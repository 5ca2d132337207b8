/** A cell of a queue. */
class Cell {
    int item;
    boolean isWaiting;
    Cell next;
}

/** A queue of cells: its first one and its last one. */
class Queue {
    Cell first;
    Cell last;

    /** Whether a cell with the item waits here. */
    boolean contains(int wanted) {
        for (Cell cell = first; cell != null; cell = cell.next) {
            if (cell.isWaiting && cell.item == wanted) {
                return true;
            }
        }
        return false;
    }

    /** Puts the cell behind the last one. */
    void insert(Cell cell) {
        cell.next = null;
        cell.isWaiting = true;
        if (last == null) {
            first = cell;
        } else {
            last.next = cell;
        }
        last = cell;
    }

    /** Takes the first cell out, if there is one. */
    Cell remove() {
        Cell cell = first;
        if (cell != null) {
            first = cell.next;
            if (first == null) {
                last = null;
            }
            cell.next = null;
            cell.isWaiting = false;
        }
        return cell;
    }

    /** Puts the cells into the other order. */
    void reverse() {
        Cell done = null;
        Cell cell = first;
        last = first;
        while (cell != null) {
            Cell rest = cell.next;
            cell.next = done;
            done = cell;
            cell = rest;
        }
        first = done;
    }

    /** Puts the first cell behind the last one. */
    void rotate() {
        Cell cell = first;
        if (cell != last) {
            first = cell.next;
            cell.next = null;
            last.next = cell;
            last = cell;
        }
    }
}
