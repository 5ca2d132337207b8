import java.util.ArrayList;
import java.util.List;
import java.util.function.Supplier;

/** Fields of every type, interfaces, an inner class, generics, annotations, a lambda, wide constants and handlers. */
@Deprecated
abstract class Parts<T extends Comparable<T>> implements Runnable, Comparable<Parts<T>> {
    static final long LONG = 0x1234567890L;
    static final double DOUBLE = 0.1;
    boolean z;
    byte b = -1;
    char c = 'c';
    short s;
    int i = 100000;
    long j;
    float f = 1.5f;
    double d = DOUBLE;
    int[][] numbers;
    T value;
    List<? super T> values = new ArrayList<>();

    class Inner {
        long sum() {
            return j + LONG;
        }
    }

    @Override
    public void run() {
        Supplier<String> text = () -> "text " + value;
        try {
            s = (short) text.get().charAt(i);
        } catch (IndexOutOfBoundsException e) {
            s = 0;
        } finally {
            z = true;
        }
    }

    public int compareTo(Parts<T> other) {
        return value.compareTo(other.value);
    }

    abstract int size();
}
