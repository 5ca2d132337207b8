import java.util.Scanner;

/** Answers questions of one operation and its ints, a line each, as the Java virtual machine computes them. */
class Ints {
    public static void main(String[] args) {
        Scanner lines = new Scanner(System.in);
        StringBuilder text = new StringBuilder();
        while (lines.hasNextLine()) {
            String[] words = lines.nextLine().split(" ");
            int left = Integer.parseInt(words[1]);
            text.append(words.length == 2 ? one(words[0], left) : two(words[0], left, Integer.parseInt(words[2])));
            text.append('\n');
        }
        System.out.print(text);
    }

    static int one(String operation, int value) {
        switch (operation) {
            case "neg": return -value;
            case "to_byte": return (byte) value;
            case "to_char": return (char) value;
            case "to_short": return (short) value;
            default: throw new IllegalArgumentException(operation);
        }
    }

    static int two(String operation, int left, int right) {
        switch (operation) {
            case "add": return left + right;
            case "sub": return left - right;
            case "mul": return left * right;
            case "div": return right == 0 ? 0 : left / right;
            case "rem": return right == 0 ? 0 : left % right;
            case "shl": return left << right;
            case "shr": return left >> right;
            case "ushr": return left >>> right;
            case "and": return left & right;
            case "or": return left | right;
            case "xor": return left ^ right;
            case "eq": return left == right ? 1 : 0;
            case "lt": return left < right ? 1 : 0;
            case "ult": return Integer.compareUnsigned(left, right) < 0 ? 1 : 0;
            default: throw new IllegalArgumentException(operation);
        }
    }
}
