package desugar;

import static org.objectweb.asm.Opcodes.ACC_ABSTRACT;
import static org.objectweb.asm.Opcodes.ACC_NATIVE;
import static org.objectweb.asm.Opcodes.ALOAD;
import static org.objectweb.asm.Opcodes.DUP;
import static org.objectweb.asm.Opcodes.ILOAD;
import static org.objectweb.asm.Opcodes.INVOKESTATIC;
import static org.objectweb.asm.Opcodes.IRETURN;

import java.util.Set;
import org.objectweb.asm.ConstantDynamic;
import org.objectweb.asm.Handle;
import org.objectweb.asm.Type;
import org.objectweb.asm.tree.AbstractInsnNode;
import org.objectweb.asm.tree.FieldInsnNode;
import org.objectweb.asm.tree.InsnList;
import org.objectweb.asm.tree.InsnNode;
import org.objectweb.asm.tree.InvokeDynamicInsnNode;
import org.objectweb.asm.tree.LdcInsnNode;
import org.objectweb.asm.tree.MethodInsnNode;
import org.objectweb.asm.tree.MethodNode;
import org.objectweb.asm.tree.TryCatchBlockNode;
import org.objectweb.asm.tree.TypeInsnNode;
import org.objectweb.asm.tree.VarInsnNode;

/** Rewrites the code of one method, each instruction by the trick for its kind; names and descriptors stay Java's until `Renaming`. */
final class MethodRewriter {
    /** Natives that give the bits of a number, which here is its bits. */
    private static final Set<String> OF_BITS =
            Set.of("floatToRawIntBits", "intBitsToFloat", "doubleToRawLongBits", "longBitsToDouble");
    /** Throwables whose handlers catch what a class throws that failed to initialise. */
    private static final Set<String> ABOVE_FAILED =
            Set.of("java/lang/Throwable", "java/lang/Error", "java/lang/LinkageError", "java/lang/NoClassDefFoundError");

    private final Body body;
    private final MethodNode method;

    MethodRewriter(Body body) {
        this.body = body;
        this.method = body.method;
    }

    void rewrite() {
        if (isMended() || isNative() || body.code.size() == 0) {
            return;
        }
        if (body.world.leavesOut(body.owner.name, method.name)) {
            body.cutWhole(Types.dotted(body.owner.name) + "." + method.name);
            return;
        }
        handlers();
        TypeUses typeUses = new TypeUses(body);
        FieldUses fieldUses = new FieldUses(body);
        Calls calls = new Calls(body);
        Constructions constructions = new Constructions(body);
        Lambdas lambdas = new Lambdas(body);
        AbstractInsnNode next;
        for (AbstractInsnNode at = body.code.getFirst(); at != null; at = next) {
            next = at.getNext();
            if (at instanceof LdcInsnNode) {
                constant((LdcInsnNode) at);
            } else if (at instanceof TypeInsnNode) {
                typeUses.rewrite((TypeInsnNode) at);
            } else if (at instanceof FieldInsnNode) {
                fieldUses.rewrite((FieldInsnNode) at);
            } else if (at instanceof InvokeDynamicInsnNode) {
                dynamic((InvokeDynamicInsnNode) at, lambdas);
            } else if (at instanceof MethodInsnNode && ((MethodInsnNode) at).name.equals("<init>")) {
                constructions.rewrite((MethodInsnNode) at);
            } else if (at instanceof MethodInsnNode) {
                calls.rewrite((MethodInsnNode) at);
            }
        }
        SoftFloats.rewrite(body.code);
        DeadCode.remove(method);
    }

    /** A method of the JDK that has one in the library in its place calls that. */
    private boolean isMended() {
        if (body.isHelper() || method.name.startsWith("<")) {
            return false;
        }
        String mended = Library.mendedOf(body.owner.name);
        String descriptor = Types.isStatic(method) ? method.desc : Calls.withReceiver(body.owner.name, method.desc);
        boolean found = World.method(body.world.get(mended), method.name, descriptor) != null;
        if (found) {
            method.access &= ~(ACC_NATIVE | ACC_ABSTRACT);
            pass(loadAll(new InsnList()), new MethodInsnNode(INVOKESTATIC, mended, method.name, descriptor, false));
        }
        return found;
    }

    private InsnList loadAll(InsnList code) {
        int local = 0;
        if (!Types.isStatic(method)) {
            code.add(new VarInsnNode(ALOAD, local++));
        }
        for (Type parameter : Type.getArgumentTypes(method.desc)) {
            code.add(new VarInsnNode(Types.opcode(parameter, ILOAD), local));
            local += parameter.getSize();
        }
        return code;
    }

    private void pass(InsnList loads, AbstractInsnNode call) {
        body.code.clear();
        method.tryCatchBlocks.clear();
        body.code.add(loads);
        if (call != null) {
            body.code.add(call);
        }
        body.code.add(new InsnNode(Types.opcode(Type.getReturnType(method.desc), IRETURN)));
        method.maxLocals = Type.getArgumentsAndReturnSizes(method.desc) >> 2;
    }

    private boolean isNative() {
        boolean isNative = (method.access & ACC_NATIVE) != 0;
        if (isNative) {
            method.access &= ~ACC_NATIVE;
            if (OF_BITS.contains(method.name)) {
                pass(loadAll(new InsnList()), null);
            } else {
                method.maxLocals = Type.getArgumentsAndReturnSizes(method.desc) >> 2;
                body.cutWhole("native " + Types.dotted(body.owner.name) + "." + method.name);
            }
        }
        return isNative;
    }

    /** Handlers of throwables that there can't be go; those of errors ask for a cut that was met by an initialiser. */
    private void handlers() {
        method.tryCatchBlocks.removeIf(block -> block.type != null && !body.world.isThrowable(block.type));
        for (TryCatchBlockNode block : method.tryCatchBlocks) {
            block.visibleTypeAnnotations = null;
            block.invisibleTypeAnnotations = null;
            AbstractInsnNode first = Body.next(block.handler);
            boolean asked = first instanceof MethodInsnNode || first.getOpcode() == DUP && isQuestion(Body.next(first));
            if (block.type != null && ABOVE_FAILED.contains(block.type) && !body.isHelper() && !asked) {
                body.code.insertBefore(first, new InsnNode(DUP));
                body.callBefore(first, Library.UNSERVED, "caught", "(Ljava/lang/Throwable;)V");
            }
        }
    }

    private static boolean isQuestion(AbstractInsnNode at) {
        return at instanceof MethodInsnNode && ((MethodInsnNode) at).owner.equals(Library.UNSERVED);
    }

    private void constant(LdcInsnNode at) {
        Object value = at.cst;
        if (value instanceof Type && ((Type) value).getSort() != Type.METHOD) {
            at.cst = body.types.token((Type) value);
        } else if (value instanceof Float) {
            at.cst = Float.floatToIntBits((Float) value);
        } else if (value instanceof Double) {
            at.cst = Double.doubleToLongBits((Double) value);
        } else if (value instanceof ConstantDynamic || value instanceof Handle || value instanceof Type) {
            body.cut(at, "constant of a method or of invokedynamic");
        }
    }

    private void dynamic(InvokeDynamicInsnNode at, Lambdas lambdas) {
        switch (at.bsm.getOwner()) {
            case "java/lang/invoke/StringConcatFactory":
                new Concatenation(body).rewrite(at);
                break;
            case "java/lang/invoke/LambdaMetafactory":
                lambdas.rewrite(at);
                break;
            default:
                body.cut(at, "invokedynamic of " + Types.dotted(at.bsm.getOwner()));
        }
    }
}
