public class Bits {
    /** How many bits of an int are 1; -1 for a negative int. */
    public static int ones(int n) {
        if (n < 0) {
            return -1;
        }
        int count = 0;
        while (n != 0) {
            n &= n - 1;
            count++;
        }
        return count;
    }
}
