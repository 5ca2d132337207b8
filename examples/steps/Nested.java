// Recursion over lists and trees, and a visitor.
class Links {
    int value;
    Links next;

    Links(int value, Links next) {
        this.value = value;
        this.next = next;
    }

    int sum() {
        return next == null ? value : value + next.sum();
    }

    static int length(Links links) {
        return links == null ? 0 : 1 + length(links.next);
    }

    static Links copied(Links links) {
        return links == null ? null : new Links(links.value, copied(links.next));
    }

    static Links reversed(Links links, Links done) {
        if (links == null) {
            return done;
        }
        Links rest = links.next;
        links.next = done;
        return reversed(rest, links);
    }

    boolean isEven() {
        return next == null || next.isOdd();
    }

    boolean isOdd() {
        return next != null && next.isEven();
    }
}

class Branch {
    int key;
    Branch left;
    Branch right;

    Branch(int key) {
        this.key = key;
    }

    static int size(Branch tree) {
        return tree == null ? 0 : size(tree.left) + 1 + size(tree.right);
    }

    static boolean has(Branch tree, int key) {
        if (tree == null) {
            return false;
        }
        return key == tree.key || has(key < tree.key ? tree.left : tree.right, key);
    }

    static Branch with(Branch tree, int key) {
        if (tree == null) {
            return new Branch(key);
        }
        if (key < tree.key) {
            tree.left = with(tree.left, key);
        } else if (tree.key < key) {
            tree.right = with(tree.right, key);
        }
        return tree;
    }
}

abstract class Term {
    abstract int accept(Visitor visitor);

    static int visited(Term term) {
        return term.accept(new Total());
    }

    static int by(Term term, Visitor visitor) {
        return term.accept(visitor);
    }
}

class Leaf extends Term {
    int number;

    @Override
    int accept(Visitor visitor) {
        return visitor.onLeaf(this);
    }
}

class Pair extends Term {
    Term left;
    Term right;

    @Override
    int accept(Visitor visitor) {
        return visitor.onPair(this);
    }
}

interface Visitor {
    int onLeaf(Leaf leaf);

    int onPair(Pair pair);
}

class Total implements Visitor {
    @Override
    public int onLeaf(Leaf leaf) {
        return leaf.number;
    }

    @Override
    public int onPair(Pair pair) {
        return pair.left.accept(this) + pair.right.accept(this);
    }
}

class Count implements Visitor {
    int leaves;

    @Override
    public int onLeaf(Leaf leaf) {
        leaves++;
        return leaves;
    }

    @Override
    public int onPair(Pair pair) {
        pair.left.accept(this);
        return pair.right.accept(this);
    }
}
