    // returns true where this.elem == arg0
    @Test
    public void path_0() throws Throwable {
        Heap heap = new Heap("path_0");
        heap.make("i0", "this", "List", -1);
        heap.set("i0", "List", "elem", "int", "0");
        heap.set("i0", "List", "next", "List", "null");
        heap.call("List", "contains", "boolean", new String[] {"int"}, "i0", "0");
        heap.returned("boolean", "1");
        heap.holds("this.elem", "i0", "List", "elem", "int", "0");
        heap.holds("this.next", "i0", "List", "next", "List", "null");
    }

    // returns false where this.next == null && this.elem != arg0
    @Test
    public void path_1_0() throws Throwable {
        Heap heap = new Heap("path_1_0");
        heap.make("i0", "this", "List", -1);
        heap.set("i0", "List", "elem", "int", "1");
        heap.set("i0", "List", "next", "List", "null");
        heap.call("List", "contains", "boolean", new String[] {"int"}, "i0", "0");
        heap.returned("boolean", "0");
        heap.holds("this.elem", "i0", "List", "elem", "int", "1");
        heap.holds("this.next", "i0", "List", "next", "List", "null");
    }

