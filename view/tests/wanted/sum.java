    // returns arg0 + arg1
    @Test
    public void path() throws Throwable {
        Heap heap = new Heap("path");
        heap.call("A", "f", "int", new String[] {"int", "int"}, "null", "0", "0");
        heap.returned("int", "0");
    }

