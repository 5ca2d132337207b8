import java.io.IOException;
import java.nio.file.Files;
import java.nio.file.Path;
import java.util.ArrayList;
import java.util.Arrays;
import java.util.HashMap;
import java.util.List;
import java.util.Map;
import jdk.internal.org.objectweb.asm.ClassWriter;
import jdk.internal.org.objectweb.asm.Label;
import jdk.internal.org.objectweb.asm.MethodVisitor;
import jdk.internal.org.objectweb.asm.Opcodes;
import jdk.internal.org.objectweb.asm.util.Printer;

/**
 * Writes the class files of texts, one instruction a line, by the JDK's own ASM.
 *
 * <p>A class is a line {@code class FLAGS NAME SUPERCLASS} and lines {@code implements NAME}, {@code field FLAGS NAME
 * DESCRIPTOR} and {@code method FLAGS NAME DESCRIPTOR STACK LOCALS}. Behind the last the method's code stands, up to a line
 * {@code end}. Flags are in base 16. In code {@code :LABEL} names the offset that follows, and {@code catch START END HANDLER
 * CLASS} is an entry of the handler table, with {@code any} for every exception. Lines that begin with # are comments. The
 * version is 49, the last for which a virtual machine needs no stack maps.
 */
class Assembler {
    private static final int VERSION = 49;
    /** An entry of the constant pool from this number on needs ldc_w. */
    private static final int FIRST_WIDE = 256;

    private static final int GOTO_W = 200;
    private static final Map<String, Integer> OPCODES = opcodes();

    private final ClassWriter writer = new ClassWriter(0);
    private final String name;
    private MethodVisitor code;
    private Map<String, Label> labels;

    /** The class of these lines, of which the first begins it. */
    private Assembler(List<String> lines) {
        String[] head = lines.get(0).split(" ");
        name = head[2];
        writer.visit(VERSION, Integer.parseInt(head[1], 16), name, null, head[3], interfaces(lines));
        for (String line : lines.subList(1, lines.size())) {
            add(line.split(" "));
        }
        writer.visitEnd();
    }

    /** The words are a folder and the texts whose classes are written into it. */
    public static void main(String[] words) throws IOException {
        for (String text : Arrays.asList(words).subList(1, words.length)) {
            for (List<String> lines : classes(Files.readAllLines(Path.of(text)))) {
                Assembler one = new Assembler(lines);
                Files.write(Path.of(words[0], one.name + ".class"), one.writer.toByteArray());
            }
        }
    }

    /** The lines of each class. */
    private static List<List<String>> classes(List<String> lines) {
        List<List<String>> found = new ArrayList<>();
        for (String line : lines) {
            if (line.startsWith("class ")) {
                found.add(new ArrayList<>());
            }
            if (!line.startsWith("#")) {
                found.get(found.size() - 1).add(line);
            }
        }
        return found;
    }

    private static String[] interfaces(List<String> lines) {
        return lines.stream().filter(line -> line.startsWith("implements ")).map(line -> line.split(" ")[1]).toArray(String[]::new);
    }

    private static Map<String, Integer> opcodes() {
        Map<String, Integer> found = new HashMap<>();
        for (int opcode = 0; opcode < Printer.OPCODES.length; opcode++) {
            found.put(Printer.OPCODES[opcode].toLowerCase(), opcode);
        }
        found.put("goto_w", GOTO_W);
        return found;
    }

    private void add(String[] words) {
        switch (words[0]) {
            case "implements" -> { }
            case "field" -> writer.visitField(Integer.parseInt(words[1], 16), words[2], words[3], null, null).visitEnd();
            case "method" -> begin(words);
            case "end" -> code.visitEnd();
            case "catch" -> handler(words);
            case "ldc", "ldc_w" -> load(words);
            case "tableswitch" -> table(words);
            case "lookupswitch" -> lookup(words);
            default -> instruction(words);
        }
    }

    private void begin(String[] words) {
        code = writer.visitMethod(Integer.parseInt(words[1], 16), words[2], words[3], null, null);
        labels = new HashMap<>();
        if (words.length > 4) {
            code.visitCode();
            code.visitMaxs(Integer.parseInt(words[4]), Integer.parseInt(words[5]));
        }
    }

    private void handler(String[] words) {
        String type = words[4].equals("any") ? null : words[4];
        code.visitTryCatchBlock(label(words[1]), label(words[2]), label(words[3]), type);
    }

    private Label label(String named) {
        return labels.computeIfAbsent(named, unused -> new Label());
    }

    /** A constant, {@code int N} or {@code str TEXT}: for ldc_w one whose number is large enough. */
    private void load(String[] words) {
        for (int filler = 0; words[0].equals("ldc_w") && writer.newConst(filler) < FIRST_WIDE; filler++) { }
        code.visitLdcInsn(words[1].equals("int") ? (Object) Integer.valueOf(words[2]) : words[2]);
    }

    /** The lowest key, the default target and the targets. */
    private void table(String[] words) {
        int low = Integer.parseInt(words[1]);
        Label[] targets = Arrays.stream(words).skip(3).map(this::label).toArray(Label[]::new);
        code.visitTableSwitchInsn(low, low + targets.length - 1, label(words[2]), targets);
    }

    /** The default target, and keys with their targets. */
    private void lookup(String[] words) {
        List<String[]> pairs = Arrays.stream(words).skip(2).map(pair -> pair.split(":")).toList();
        int[] keys = pairs.stream().mapToInt(pair -> Integer.parseInt(pair[0])).toArray();
        code.visitLookupSwitchInsn(label(words[1]), keys, pairs.stream().map(pair -> label(pair[1])).toArray(Label[]::new));
    }

    private void instruction(String[] words) {
        if (words[0].startsWith(":")) {
            code.visitLabel(label(words[0].substring(1)));
            return;
        }
        int opcode = OPCODES.get(words[0]);
        switch (opcode) {
            case Opcodes.BIPUSH, Opcodes.SIPUSH, Opcodes.NEWARRAY -> code.visitIntInsn(opcode, Integer.parseInt(words[1]));
            case Opcodes.ILOAD, Opcodes.ALOAD, Opcodes.ISTORE, Opcodes.ASTORE -> code.visitVarInsn(opcode, Integer.parseInt(words[1]));
            case Opcodes.IINC -> code.visitIincInsn(Integer.parseInt(words[1]), Integer.parseInt(words[2]));
            case Opcodes.NEW, Opcodes.ANEWARRAY, Opcodes.CHECKCAST, Opcodes.INSTANCEOF -> code.visitTypeInsn(opcode, words[1]);
            case Opcodes.GETFIELD, Opcodes.PUTFIELD -> code.visitFieldInsn(opcode, words[1], words[2], words[3]);
            case Opcodes.INVOKEVIRTUAL, Opcodes.INVOKESPECIAL, Opcodes.INVOKESTATIC, Opcodes.INVOKEINTERFACE ->
                code.visitMethodInsn(opcode, words[1], words[2], words[3], opcode == Opcodes.INVOKEINTERFACE);
            default -> {
                if (words.length == 1) {
                    code.visitInsn(opcode);
                } else {
                    code.visitJumpInsn(opcode, label(words[1]));
                }
            }
        }
    }
}
