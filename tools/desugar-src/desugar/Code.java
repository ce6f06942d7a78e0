package desugar;

import org.objectweb.asm.Label;
import org.objectweb.asm.Opcodes;
import org.objectweb.asm.Type;
import org.objectweb.asm.tree.ClassNode;
import org.objectweb.asm.tree.MethodNode;

/** Writes the code of a static method, a step at a time. */
final class Code {
    private static final String THROWABLE = "java/lang/Throwable";

    private final MethodNode method;
    private int locals;

    private Code(MethodNode method) {
        this.method = method;
    }

    /** The code of a new public static method of a class. */
    static Code method(ClassNode owner, String name, String descriptor) {
        MethodNode method = new MethodNode(Opcodes.ACC_PUBLIC | Opcodes.ACC_STATIC, name, descriptor, null, null);
        owner.methods.add(method);
        return new Code(method);
    }

    /** The code of a new public method of an object of a class; the object is in the first local variable. */
    static Code ofObject(ClassNode owner, String name, String descriptor) {
        MethodNode method = new MethodNode(Opcodes.ACC_PUBLIC, name, descriptor, null, null);
        owner.methods.add(method);
        Code code = new Code(method);
        code.local(1);
        return code;
    }

    /** The number of a new local variable of so many words. */
    int local(int words) {
        locals += words;
        method.maxLocals = locals;
        return locals - words;
    }

    Code plain(int opcode) {
        method.visitInsn(opcode);
        return this;
    }

    Code load(int opcode, int local) {
        method.visitVarInsn(opcode, local);
        return this;
    }

    Code store(int opcode, int local) {
        method.visitVarInsn(opcode, local);
        return this;
    }

    Code constant(Object value) {
        method.visitLdcInsn(value);
        return this;
    }

    Code type(int opcode, String name) {
        method.visitTypeInsn(opcode, name);
        return this;
    }

    Code field(int opcode, String owner, String name, String descriptor) {
        method.visitFieldInsn(opcode, owner, name, descriptor);
        return this;
    }

    Code call(int opcode, MethodRef called, boolean ofInterface) {
        method.visitMethodInsn(opcode, called.owner(), called.name(), called.descriptor(), ofInterface);
        return this;
    }

    Code jump(int opcode, Label to) {
        method.visitJumpInsn(opcode, to);
        return this;
    }

    Code label(Label here) {
        method.visitLabel(here);
        return this;
    }

    /** A new object of a class, by its constructor without arguments but for one text, where there is one. */
    Code make(String owner, String text) {
        type(Opcodes.NEW, owner).plain(Opcodes.DUP);
        if (text != null) {
            constant(text);
        }
        return call(Opcodes.INVOKESPECIAL, new MethodRef(owner, "<init>", text == null ? "()V" : "(Ljava/lang/String;)V"), false);
    }

    /** Runs the body, and with a throwable of the type that it ends with, on the stack, the handler; both may end with a jump. */
    Code guarded(Runnable body, String type, Runnable handler) {
        Label from = new Label();
        Label to = new Label();
        Label behind = new Label();
        label(from);
        body.run();
        jump(Opcodes.GOTO, behind).label(to);
        method.visitTryCatchBlock(from, to, to, type);
        handler.run();
        return label(behind);
    }

    /** Runs the body; what it throws goes to the local variable, where that is null. */
    Code keepingFirst(int thrown, Runnable body) {
        return guarded(body, THROWABLE, () -> {
            Label keep = new Label();
            Label done = new Label();
            load(Opcodes.ALOAD, thrown).jump(Opcodes.IFNULL, keep);
            plain(Opcodes.POP).jump(Opcodes.GOTO, done);
            label(keep).store(Opcodes.ASTORE, thrown).label(done);
        });
    }

    /** Throws what is pushed, where it isn't null. */
    Code rethrow(Runnable push) {
        Label none = new Label();
        push.run();
        jump(Opcodes.IFNULL, none);
        push.run();
        return plain(Opcodes.ATHROW).label(none);
    }

    /** A line on standard output. */
    Code print(String line) {
        field(Opcodes.GETSTATIC, "java/lang/System", "out", "Ljava/io/PrintStream;").constant(line);
        return call(Opcodes.INVOKEVIRTUAL, new MethodRef("java/io/PrintStream", "println", "(Ljava/lang/String;)V"), false);
    }

    /** A whole number, by whichever instruction pushes it. */
    Code number(int value) {
        return constant(value);
    }

    /** A new array of elements of the type, of the length on the stack. */
    Code newArray(Type element) {
        if (element.getSort() >= Type.ARRAY) {
            return type(Opcodes.ANEWARRAY, element.getInternalName());
        }
        int[] codes = {Opcodes.T_BOOLEAN, Opcodes.T_CHAR, Opcodes.T_BYTE, Opcodes.T_SHORT, Opcodes.T_INT, Opcodes.T_FLOAT, Opcodes.T_LONG, Opcodes.T_DOUBLE};
        method.visitIntInsn(Opcodes.NEWARRAY, codes[element.getSort() - Type.BOOLEAN]);
        return this;
    }

    /** Makes a box of the primitive value on the stack. */
    Code box(char primitive) {
        String owner = ArgumentConversion.box(primitive);
        return call(Opcodes.INVOKESTATIC, new MethodRef(owner, "valueOf", "(" + primitive + ")L" + owner + ";"), false);
    }

    /** The value of the box on the stack as one of the type, or the object there as one of the class. */
    Code unbox(Type to) {
        if (to.getSort() >= Type.ARRAY) {
            return to.getDescriptor().equals("Ljava/lang/Object;") ? this : type(Opcodes.CHECKCAST, to.getInternalName());
        }
        String name = "to" + ArgumentConversion.box(to.getDescriptor().charAt(0)).substring("java/lang/".length());
        return call(Opcodes.INVOKESTATIC, new MethodRef(ArgumentsWriter.HELPERS, name, "(Ljava/lang/Object;)" + to.getDescriptor()), false);
    }
}
