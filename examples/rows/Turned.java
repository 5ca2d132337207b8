// The class Gone with a static field and an instance method, where Reached asks for the contrary.
class Gone {
    int kept;
    static int lost;

    int lost(int a) {
        return a;
    }
}
