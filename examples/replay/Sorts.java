/** What changes arrays. */
class Sorts {
    /** Sorts by insertion. */
    static void sort(int[] numbers) {
        for (int end = 1; end < numbers.length; end++) {
            int moved = numbers[end];
            int place = end;
            while (place > 0 && numbers[place - 1] > moved) {
                numbers[place] = numbers[place - 1];
                place--;
            }
            numbers[place] = moved;
        }
    }

    /** Exchanges two elements. */
    static void swap(Object[] objects, int one, int other) {
        Object kept = objects[one];
        objects[one] = objects[other];
        objects[other] = kept;
    }

    /** The numbers without the first. */
    static int[] rest(int[] numbers) {
        int[] rest = new int[numbers.length - 1];
        for (int i = 0; i < rest.length; i++) {
            rest[i] = numbers[i + 1];
        }
        return rest;
    }
}
