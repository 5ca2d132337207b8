    // throws NullPointerException where other == null && cells == null && this.next == this
    @Test
    public void path_0() throws Throwable {
        Heap heap = new Heap("path_0");
        heap.make("i0", "this", "p.Box", -1);
        heap.set("i0", "p.Box", "next", "p.Box", "i0");
        heap.set("i0", "p.Box", "a\53b", "java.lang.Object", "null");
        heap.set("i0", "p.Box", "flag", "boolean", "0");
        heap.set("i0", "p.Box", "two", "int", "0");
        heap.set("i0", "p.Box", "two", "boolean", "1");
        heap.set("i0", "p.Box", "number", "int", "0");
        heap.makes("n0", "java.lang.NullPointerException", -1);
        heap.call("p.Box", "take", "java.lang.Object", new String[] {"p.Box", "int[]", "int"}, "i0", "null", "null", "0");
        heap.threw("n0");
        heap.holds("this.next", "i0", "p.Box", "next", "p.Box", "i0");
        heap.holds("this.a\53b", "i0", "p.Box", "a\53b", "java.lang.Object", "null");
        heap.holds("this.flag", "i0", "p.Box", "flag", "boolean", "0");
        heap.holds("this.two:int", "i0", "p.Box", "two", "int", "1");
        heap.holds("this.two:boolean", "i0", "p.Box", "two", "boolean", "1");
        heap.holds("this.number", "i0", "p.Box", "number", "int", "0");
    }

