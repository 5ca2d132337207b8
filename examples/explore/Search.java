/** A search tree of ints: those below a node's key are on its left, those above on its right. */
class Search {
    int key;
    Search left;
    Search right;

    /** Whether the key is in this tree. */
    boolean contains(int wanted) {
        Search tree = this;
        while (tree != null) {
            if (wanted == tree.key) {
                return true;
            }
            tree = wanted < tree.key ? tree.left : tree.right;
        }
        return false;
    }

    /** Puts the node in as a leaf, and tells whether its key was not there. */
    boolean insert(Search leaf) {
        Search tree = this;
        while (leaf.key != tree.key) {
            Search below = leaf.key < tree.key ? tree.left : tree.right;
            if (below == null) {
                if (leaf.key < tree.key) {
                    tree.left = leaf;
                } else {
                    tree.right = leaf;
                }
                return true;
            }
            tree = below;
        }
        return false;
    }

    /** The tree without its least key. */
    static Search removeLeast(Search tree) {
        if (tree == null || tree.left == null) {
            return tree == null ? null : tree.right;
        }
        Search above = tree;
        while (above.left.left != null) {
            above = above.left;
        }
        above.left = above.left.right;
        return tree;
    }

    /** Exchanges left and right along the left edge. */
    static Search reverse(Search tree) {
        Search node = tree;
        while (node != null) {
            Search below = node.left;
            node.left = node.right;
            node.right = below;
            node = below;
        }
        return tree;
    }

    /** The tree turned to the right: its left child is above it then. */
    Search rotate() {
        Search top = left;
        left = top.right;
        top.right = this;
        return top;
    }
}
