public class A {
    public static int f(int a, int b) {
        return a + b;
    }
}
