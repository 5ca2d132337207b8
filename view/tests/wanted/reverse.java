    // returns null where arg0 == null
    @Test
    public void path_0() throws Throwable {
        Heap heap = new Heap("path_0");
        heap.call("List", "reverse", "List", new String[] {"List"}, "null", "null");
        heap.returned("List", "null");
    }

    // returns arg0 where arg0 != null && arg0.next == null
    @Test
    public void path_1_0() throws Throwable {
        Heap heap = new Heap("path_1_0");
        heap.make("i0", "arg0", "List", -1);
        heap.set("i0", "List", "elem", "int", "0");
        heap.set("i0", "List", "next", "List", "null");
        heap.call("List", "reverse", "List", new String[] {"List"}, "null", "i0");
        heap.returned("List", "i0");
        heap.holds("arg0.elem", "i0", "List", "elem", "int", "0");
        heap.holds("arg0.next", "i0", "List", "next", "List", "null");
    }

    // returns arg0 where arg0 != null && arg0.next == arg0
    @Test
    public void path_1_1() throws Throwable {
        Heap heap = new Heap("path_1_1");
        heap.make("i0", "arg0", "List", -1);
        heap.set("i0", "List", "elem", "int", "0");
        heap.set("i0", "List", "next", "List", "i0");
        heap.call("List", "reverse", "List", new String[] {"List"}, "null", "i0");
        heap.returned("List", "i0");
        heap.holds("arg0.elem", "i0", "List", "elem", "int", "0");
        heap.holds("arg0.next", "i0", "List", "next", "List", "i0");
    }

