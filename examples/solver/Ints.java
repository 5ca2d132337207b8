/** Prints what a Java virtual machine makes of each operation on corner values, as rows of crates/term_rows. */
final class Ints {
    private static final int[][] PAIRS = {
        {0, 0}, {1, -1}, {Integer.MIN_VALUE, -1}, {Integer.MAX_VALUE, 1}, {Integer.MAX_VALUE, 33}, {-7, 33},
        {Integer.MIN_VALUE, Integer.MAX_VALUE}, {65535, 65537}, {0x1234f6a8, 36}, {-19, -1}, {0x12345678, -0x07654321},
    };
    private static final int[][] FACTORS = {
        {0, -1}, {46341, 46341}, {Integer.MIN_VALUE, Integer.MIN_VALUE}, {Integer.MAX_VALUE, Integer.MAX_VALUE}, {-1, -1},
    };
    private static final int[][] DIVISIONS = {
        {0, 1}, {7, 2}, {-7, 2}, {7, -2}, {-7, -2}, {-1, 2}, {1000000007, 97}, {Integer.MAX_VALUE, -1}, {Integer.MIN_VALUE, -1},
        {Integer.MIN_VALUE, 1}, {Integer.MIN_VALUE, Integer.MIN_VALUE}, {Integer.MIN_VALUE, Integer.MAX_VALUE},
        {Integer.MAX_VALUE, Integer.MIN_VALUE},
    };

    private static void print(String name, int[] pair, int value) {
        System.out.println("computes " + name + " " + pair[0] + " " + pair[1] + " " + value + ": true");
    }

    private static int bit(boolean holds) {
        return holds ? 1 : 0;
    }

    public static void main(String[] words) {
        for (int[] pair : PAIRS) {
            int left = pair[0];
            int right = pair[1];
            print("add", pair, left + right);
            print("sub", pair, left - right);
            print("mul", pair, left * right);
            print("neg", pair, -left);
            print("shl", pair, left << right);
            print("shr", pair, left >> right);
            print("ushr", pair, left >>> right);
            print("and", pair, left & right);
            print("or", pair, left | right);
            print("xor", pair, left ^ right);
            print("byte", pair, (byte) left);
            print("char", pair, (char) left);
            print("short", pair, (short) left);
            print("eq", pair, bit(left == right));
            print("lt", pair, bit(left < right));
            print("ult", pair, bit(Integer.compareUnsigned(left, right) < 0));
        }
        for (int[] pair : FACTORS) {
            print("mul", pair, pair[0] * pair[1]);
        }
        for (int[] pair : DIVISIONS) {
            print("div", pair, pair[0] / pair[1]);
            print("rem", pair, pair[0] % pair[1]);
        }
    }
}
