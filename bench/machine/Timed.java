import java.lang.reflect.Method;

/** Calls a static method of a class on an int again and again, and prints the nanoseconds of one call and its last result. */
class Timed {
    public static void main(String[] words) throws Exception {
        Method method = Class.forName(words[0]).getDeclaredMethod(words[1], int.class);
        method.setAccessible(true);
        Integer argument = Integer.valueOf(words[2]);
        int times = Integer.parseInt(words[3]);
        Object result = method.invoke(null, argument);
        long start = System.nanoTime();
        for (int i = 0; i < times; i++) {
            result = method.invoke(null, argument);
        }
        System.out.println((System.nanoTime() - start) / times + " " + result);
    }
}
