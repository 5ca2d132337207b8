// The class Gone, abstract and with an initialiser.
abstract class Gone {
    static int begun;

    static {
        begun = 1;
    }
}
