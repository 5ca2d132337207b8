// A call of a method that javac calls by a bridge (JLS 8 section 15.12.4.5): Source.next is declared with the result Object, and
// the method of Ints behind its bridge converts to long, which is never carried out.
abstract class Source<T> {
    abstract T next(int of);
}

class Ints extends Source<Ints> {
    Ints next(int of) {
        long wide = of;
        return this;
    }
}

class Bridge {
    static int call(Source<Ints> source) {
        return source.next(1) == null ? 0 : 1;
    }
}
