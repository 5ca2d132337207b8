    // throws NullPointerException where this.head == null
    @Test
    public void path_0() throws Throwable {
        Heap heap = new Heap("path_0");
        heap.make("i0", "this", "MyList", -1);
        heap.set("i0", "MyList", "head", "MyList$Node", "null");
        heap.makes("n0", "java.lang.NullPointerException", -1);
        heap.call("MyList", "removeLast", "void", new String[0], "i0");
        heap.threw("n0");
        heap.holds("this.head", "i0", "MyList", "head", "MyList$Node", "null");
    }

    // throws NullPointerException where this.head != null && this.head.next == null
    @Test
    public void path_1_0() throws Throwable {
        Heap heap = new Heap("path_1_0");
        heap.make("i0", "this", "MyList", -1);
        heap.make("i1", "this.head", "MyList$Node", -1);
        heap.set("i0", "MyList", "head", "MyList$Node", "i1");
        heap.set("i1", "MyList$Node", "elem", "int", "0");
        heap.set("i1", "MyList$Node", "next", "MyList$Node", "null");
        heap.makes("n0", "java.lang.NullPointerException", -1);
        heap.call("MyList", "removeLast", "void", new String[0], "i0");
        heap.threw("n0");
        heap.holds("this.head", "i0", "MyList", "head", "MyList$Node", "i1");
        heap.holds("this.head.elem", "i1", "MyList$Node", "elem", "int", "0");
        heap.holds("this.head.next", "i1", "MyList$Node", "next", "MyList$Node", "null");
    }

