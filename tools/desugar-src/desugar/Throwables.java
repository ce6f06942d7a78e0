package desugar;

import static org.objectweb.asm.Opcodes.ACC_PUBLIC;
import static org.objectweb.asm.Opcodes.ALOAD;
import static org.objectweb.asm.Opcodes.ILOAD;
import static org.objectweb.asm.Opcodes.INVOKESPECIAL;
import static org.objectweb.asm.Opcodes.INVOKESTATIC;
import static org.objectweb.asm.Opcodes.INVOKEVIRTUAL;
import static org.objectweb.asm.Opcodes.RETURN;
import static org.objectweb.asm.Opcodes.V1_8;

import java.util.Optional;
import org.objectweb.asm.Type;
import org.objectweb.asm.tree.ClassNode;
import org.objectweb.asm.tree.InsnNode;
import org.objectweb.asm.tree.LdcInsnNode;
import org.objectweb.asm.tree.MethodInsnNode;
import org.objectweb.asm.tree.MethodNode;
import org.objectweb.asm.tree.VarInsnNode;

/** Classes for built-in throwables that are made with a cause: below the built-in class, with its name, and Java's constructors. */
final class Throwables {
    private static final String PACKAGE = "jamuvelor/thrown/";
    private static final String[] BUILT_IN = {"()V", "(Ljava/lang/String;)V", "(Ljava/lang/Object;)V", "(I)V", "(J)V", "(Z)V", "(C)V"};
    private static final String[] WITH_CAUSE = {
        "(Ljava/lang/String;Ljava/lang/Throwable;)V", "(Ljava/lang/Throwable;)V", "(Ljava/lang/String;Ljava/lang/Throwable;ZZ)V"
    };

    private Throwables() {}

    static String nameOf(String builtin) {
        return PACKAGE + builtin.substring(builtin.lastIndexOf('/') + 1);
    }

    static boolean isOne(String name) {
        return name.startsWith(PACKAGE);
    }

    /** The name that such a class has as a class token: that of the class above it. */
    static String shown(ClassNode node) {
        return isOne(node.name) ? node.superName : node.name;
    }

    /** The class of that name: its code calls constructors as Java has them, and is rewritten as any other. */
    static Optional<ClassNode> make(String name, Builtins builtins) {
        String above = "java/lang/" + name.substring(PACKAGE.length());
        if (!builtins.isThrowable(above)) {
            return Optional.empty();
        }
        ClassNode node = new ClassNode();
        node.version = V1_8;
        node.access = ACC_PUBLIC;
        node.name = name;
        node.superName = above;
        for (String descriptor : BUILT_IN) {
            if (builtins.hasMethod(above, "<init>", descriptor)) {
                node.methods.add(constructor(above, descriptor));
            }
        }
        for (String descriptor : WITH_CAUSE) {
            node.methods.add(constructor(above, descriptor));
        }
        if (above.endsWith("IndexOutOfBoundsException")) {
            node.methods.add(ofIndex(above, "I", ILOAD));
            node.methods.add(ofIndex(above, "J", org.objectweb.asm.Opcodes.LLOAD));
        }
        return Optional.of(node);
    }

    private static MethodNode constructor(String above, String descriptor) {
        MethodNode method = new MethodNode(ACC_PUBLIC, "<init>", descriptor, null, null);
        method.instructions.add(new VarInsnNode(ALOAD, 0));
        int local = 1;
        for (Type parameter : Type.getArgumentTypes(descriptor)) {
            method.instructions.add(new VarInsnNode(parameter.getOpcode(ILOAD), local));
            local += parameter.getSize();
        }
        method.instructions.add(new MethodInsnNode(INVOKESPECIAL, above, "<init>", descriptor, false));
        method.instructions.add(new InsnNode(RETURN));
        method.maxLocals = local;
        return method;
    }

    /** The constructor that takes an index, whose message tells it. */
    private static MethodNode ofIndex(String above, String letter, int load) {
        String kind = above.contains("String") ? "String index" : above.contains("Array") ? "Array index" : "Index";
        MethodNode method = new MethodNode(ACC_PUBLIC, "<init>", "(" + letter + ")V", null, null);
        method.instructions.add(new VarInsnNode(ALOAD, 0));
        method.instructions.add(new LdcInsnNode(kind + " out of range: "));
        method.instructions.add(new VarInsnNode(load, 1));
        String text = "(" + letter + ")Ljava/lang/String;";
        method.instructions.add(new MethodInsnNode(INVOKESTATIC, Builtins.STRING, "valueOf", text, false));
        String concat = "(Ljava/lang/String;)Ljava/lang/String;";
        method.instructions.add(new MethodInsnNode(INVOKEVIRTUAL, Builtins.STRING, "concat", concat, false));
        method.instructions.add(new MethodInsnNode(INVOKESPECIAL, above, "<init>", "(Ljava/lang/String;)V", false));
        method.instructions.add(new InsnNode(RETURN));
        method.maxLocals = 3;
        return method;
    }
}
