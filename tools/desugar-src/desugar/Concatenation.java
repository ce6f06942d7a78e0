package desugar;

import static org.objectweb.asm.Opcodes.DUP;
import static org.objectweb.asm.Opcodes.ILOAD;
import static org.objectweb.asm.Opcodes.INVOKESPECIAL;
import static org.objectweb.asm.Opcodes.INVOKEVIRTUAL;
import static org.objectweb.asm.Opcodes.ISTORE;
import static org.objectweb.asm.Opcodes.NEW;

import org.objectweb.asm.Type;
import org.objectweb.asm.tree.InsnList;
import org.objectweb.asm.tree.InsnNode;
import org.objectweb.asm.tree.InvokeDynamicInsnNode;
import org.objectweb.asm.tree.LdcInsnNode;
import org.objectweb.asm.tree.MethodInsnNode;
import org.objectweb.asm.tree.TypeInsnNode;
import org.objectweb.asm.tree.VarInsnNode;

/** Concatenation of strings by `StringConcatFactory` becomes one by a builder. */
final class Concatenation {
    private static final char ARGUMENT = '\1';
    private static final char CONSTANT = '\2';

    private final Body body;

    Concatenation(Body body) {
        this.body = body;
    }

    void rewrite(InvokeDynamicInsnNode site) {
        Type[] parameters = Type.getArgumentTypes(site.desc);
        InsnList code = new InsnList();
        int[] locals = storeAll(parameters, code);
        code.add(new TypeInsnNode(NEW, Library.BUILDER));
        code.add(new InsnNode(DUP));
        code.add(new MethodInsnNode(INVOKESPECIAL, Library.BUILDER, "<init>", "()V", false));
        appendAll(site, parameters, locals, code);
        code.add(new MethodInsnNode(INVOKEVIRTUAL, Library.BUILDER, "toString", "()Ljava/lang/String;", false));
        body.code.insertBefore(site, code);
        body.code.remove(site);
    }

    private int[] storeAll(Type[] parameters, InsnList code) {
        int[] locals = new int[parameters.length];
        for (int i = parameters.length - 1; i >= 0; i--) {
            locals[i] = body.newLocal(parameters[i].getSize());
            code.add(new VarInsnNode(Types.opcode(parameters[i], ISTORE), locals[i]));
        }
        return locals;
    }

    /** Follows the recipe: text, arguments and constants in turn. */
    private void appendAll(InvokeDynamicInsnNode site, Type[] parameters, int[] locals, InsnList code) {
        boolean plain = site.bsm.getName().equals("makeConcat");
        String recipe = plain ? String.valueOf(ARGUMENT).repeat(parameters.length) : (String) site.bsmArgs[0];
        StringBuilder text = new StringBuilder();
        int argument = 0;
        int constant = 1;
        for (char letter : recipe.toCharArray()) {
            if (letter == CONSTANT) {
                text.append(site.bsmArgs[constant++]);
            } else if (letter == ARGUMENT) {
                appendText(text, code);
                code.add(new VarInsnNode(Types.opcode(parameters[argument], ILOAD), locals[argument]));
                append(parameters[argument++], code);
            } else {
                text.append(letter);
            }
        }
        appendText(text, code);
    }

    private static void appendText(StringBuilder text, InsnList code) {
        if (text.length() > 0) {
            code.add(new LdcInsnNode(text.toString()));
            append(Type.getObjectType(Builtins.STRING), code);
            text.setLength(0);
        }
    }

    private static void append(Type type, InsnList code) {
        String descriptor = type.getDescriptor();
        if (type.getSort() >= Type.ARRAY && !descriptor.equals("Ljava/lang/String;")) {
            descriptor = "Ljava/lang/Object;";
        } else if (type.getSort() == Type.BYTE || type.getSort() == Type.SHORT) {
            descriptor = "I";
        }
        code.add(new MethodInsnNode(INVOKEVIRTUAL, Library.BUILDER, "append", "(" + descriptor + ")L" + Library.BUILDER + ";", false));
    }
}
