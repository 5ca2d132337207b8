import java.io.IOException;
import java.lang.invoke.MethodType;
import java.lang.reflect.InvocationTargetException;
import java.lang.reflect.Method;
import java.net.URL;
import java.net.URLClassLoader;
import java.nio.file.Files;
import java.nio.file.Path;
import java.util.Arrays;
import java.util.List;

/**
 * Writes how the runs of a table of rows end: by the Java virtual machine that runs this, but for rows whose ending stands in
 * the table itself.
 *
 * <p>A row is {@code CLASS.NAME(PARAMETERS)RESULT}, then an argument for each parameter, an int or {@code null}, and then bounds
 * of the run, as {@code loops=3}. Lines that begin with {@code files} name class files, and lines that begin with # are
 * comments. A comment {@code #= ENDING} behind a row has the row's ending.
 */
class Expect {
    private static final String STATED = "#= ";

    private final ClassLoader classes;

    private Expect(Path folder) throws IOException {
        classes = new URLClassLoader(new URL[] {folder.toUri().toURL()}, null);
    }

    /** The words are the table's file and the folder of the class files. */
    public static void main(String[] words) throws Exception {
        Expect expect = new Expect(Path.of(words[1]));
        List<String> lines = Files.readAllLines(Path.of(words[0]));
        for (int i = 0; i < lines.size(); i++) {
            String line = lines.get(i);
            if (line.isEmpty() || line.startsWith("#") || line.startsWith("files ")) {
                continue;
            }
            String next = i + 1 < lines.size() ? lines.get(i + 1) : "";
            String ending = next.startsWith(STATED) ? next.substring(STATED.length()) : expect.ending(line.split(" "));
            System.out.println(line + ": " + ending);
        }
    }

    private String ending(String[] words) throws Exception {
        List<String> args = Arrays.stream(words).skip(1).takeWhile(word -> !word.contains("=")).toList();
        Method method = method(words[0]);
        method.setAccessible(true);
        Class<?>[] types = method.getParameterTypes();
        Object[] values = new Object[types.length];
        for (int i = 0; i < types.length; i++) {
            values[i] = value(types[i], args.get(i));
        }
        try {
            Object result = method.invoke(null, values);
            return method.getReturnType() == void.class ? "returns" : "returns " + text(result);
        } catch (InvocationTargetException e) {
            return "throws " + name(e.getCause().getClass());
        }
    }

    private Method method(String target) throws ClassNotFoundException {
        int type = target.indexOf('(');
        int dot = target.lastIndexOf('.', type);
        Class<?> owner = classes.loadClass(target.substring(0, dot).replace('/', '.'));
        return Arrays.stream(owner.getDeclaredMethods())
            .filter(m -> m.getName().equals(target.substring(dot + 1, type)) && descriptor(m).equals(target.substring(type)))
            .findFirst().orElseThrow(() -> new IllegalArgumentException(target));
    }

    private static String descriptor(Method method) {
        return MethodType.methodType(method.getReturnType(), method.getParameterTypes()).toMethodDescriptorString();
    }

    private static Object value(Class<?> type, String word) {
        if (word.equals("null")) {
            return null;
        }
        return type == boolean.class ? (Object) word.equals("1") : Integer.valueOf(word);
    }

    /** An int, a boolean as 0 or 1, null, or the class of an object. */
    private static String text(Object result) {
        if (result instanceof Boolean truth) {
            return truth ? "1" : "0";
        }
        return result == null ? "null" : result instanceof Integer ? result.toString() : name(result.getClass());
    }

    private static String name(Class<?> of) {
        return of.getName().replace('.', '/');
    }
}
