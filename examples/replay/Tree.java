/** A search tree of ints. */
class Tree {
    int key;
    Tree left;
    Tree right;

    /** Inserts the key where it is not there, and tells whether it was not. */
    boolean insert(int key) {
        if (key == this.key) {
            return false;
        }
        Tree below = key < this.key ? left : right;
        if (below != null) {
            return below.insert(key);
        }
        Tree leaf = new Tree();
        leaf.key = key;
        if (key < this.key) {
            left = leaf;
        } else {
            right = leaf;
        }
        return true;
    }

    /** The tree turned to the right: its left child is above it then. */
    Tree turned() {
        Tree up = left;
        left = up.right;
        up.right = this;
        return up;
    }

    int weight() {
        return 1;
    }

    static int weightOf(Tree tree) {
        return tree == null ? 0 : tree.weight() + weightOf(tree.left) + weightOf(tree.right);
    }
}
