    // returns true where this.getClass() == Disc.class && !this.isFilled
    @Test
    public void path_0() throws Throwable {
        Heap heap = new Heap("path_0");
        heap.make("i0", "this", "Disc", -1);
        heap.set("i0", "Figure", "width", "int", "0");
        heap.set("i0", "Figure", "isFilled", "boolean", "0");
        heap.set("i0", "Figure", "inside", "Figure", "null");
        heap.set("i0", "Disc", "width", "int", "0");
        heap.call("Figure", "fill", "boolean", new String[0], "i0");
        heap.returned("boolean", "1");
        heap.holds("((Figure) this).width", "i0", "Figure", "width", "int", "0");
        heap.holds("this.isFilled", "i0", "Figure", "isFilled", "boolean", "1");
        heap.holds("this.inside", "i0", "Figure", "inside", "Figure", "null");
        heap.holds("((Disc) this).width", "i0", "Disc", "width", "int", "0");
    }

    // returns false where this.getClass() == Disc.class && this.isFilled
    @Test
    public void path_1() throws Throwable {
        Heap heap = new Heap("path_1");
        heap.make("i0", "this", "Disc", -1);
        heap.set("i0", "Figure", "width", "int", "0");
        heap.set("i0", "Figure", "isFilled", "boolean", "1");
        heap.set("i0", "Figure", "inside", "Figure", "null");
        heap.set("i0", "Disc", "width", "int", "0");
        heap.call("Figure", "fill", "boolean", new String[0], "i0");
        heap.returned("boolean", "0");
        heap.holds("((Figure) this).width", "i0", "Figure", "width", "int", "0");
        heap.holds("this.isFilled", "i0", "Figure", "isFilled", "boolean", "0");
        heap.holds("this.inside", "i0", "Figure", "inside", "Figure", "null");
        heap.holds("((Disc) this).width", "i0", "Disc", "width", "int", "0");
    }

