package desugar;

import static org.objectweb.asm.Opcodes.*;

import java.util.HashMap;
import java.util.Map;
import org.objectweb.asm.tree.AbstractInsnNode;
import org.objectweb.asm.tree.InsnList;
import org.objectweb.asm.tree.InsnNode;
import org.objectweb.asm.tree.IntInsnNode;
import org.objectweb.asm.tree.LdcInsnNode;
import org.objectweb.asm.tree.MethodInsnNode;
import org.objectweb.asm.tree.TypeInsnNode;
import org.objectweb.asm.tree.VarInsnNode;

/**
 * Instructions of float and double become ones of int and long, which hold the bits; arithmetic is done by helpers. Arrays become ones
 * of objects that hold the bits, so that they are none of int and long.
 */
final class SoftFloats {
    private record Helper(String name, String descriptor) {}

    private static final Map<Integer, Helper> ARITHMETIC = new HashMap<>();
    private static final Map<Integer, Integer> MOVES = Map.of(
            FLOAD, ILOAD, DLOAD, LLOAD, FSTORE, ISTORE, DSTORE, LSTORE, FRETURN, IRETURN, DRETURN, LRETURN);
    private static final String FLOATS = "[L" + Library.FLOAT + ";";
    private static final String DOUBLES = "[L" + Library.DOUBLE + ";";
    private static final Map<Integer, MethodInsnNode> ARRAYS = Map.of(
            FALOAD, new MethodInsnNode(INVOKESTATIC, Library.FLOAT, "get", "(" + FLOATS + "I)I", false),
            FASTORE, new MethodInsnNode(INVOKESTATIC, Library.FLOAT, "set", "(" + FLOATS + "II)V", false),
            DALOAD, new MethodInsnNode(INVOKESTATIC, Library.DOUBLE, "get", "(" + DOUBLES + "I)J", false),
            DASTORE, new MethodInsnNode(INVOKESTATIC, Library.DOUBLE, "set", "(" + DOUBLES + "IJ)V", false));

    static {
        binary(FADD, "fadd", FSUB, "fsub", FMUL, "fmul", FDIV, "fdiv", FREM, "frem", "(II)I");
        binary(DADD, "dadd", DSUB, "dsub", DMUL, "dmul", DDIV, "ddiv", DREM, "drem", "(JJ)J");
        one(FNEG, "fneg", "(I)I");
        one(DNEG, "dneg", "(J)J");
        one(I2F, "i2f", "(I)I");
        one(I2D, "i2d", "(I)J");
        one(L2F, "l2f", "(J)I");
        one(L2D, "l2d", "(J)J");
        one(F2I, "f2i", "(I)I");
        one(F2L, "f2l", "(I)J");
        one(F2D, "f2d", "(I)J");
        one(D2I, "d2i", "(J)I");
        one(D2L, "d2l", "(J)J");
        one(D2F, "d2f", "(J)I");
        one(FCMPL, "fcmpl", "(II)I");
        one(FCMPG, "fcmpg", "(II)I");
        one(DCMPL, "dcmpl", "(JJ)I");
        one(DCMPG, "dcmpg", "(JJ)I");
    }

    private SoftFloats() {}

    /** Five operations, each by its opcode and name, of one descriptor. */
    private static void binary(Object... words) {
        for (int i = 0; i + 2 < words.length; i += 2) {
            one((Integer) words[i], (String) words[i + 1], (String) words[words.length - 1]);
        }
    }

    private static void one(int opcode, String name, String descriptor) {
        ARITHMETIC.put(opcode, new Helper(name, descriptor));
    }

    static void rewrite(InsnList code) {
        AbstractInsnNode next;
        for (AbstractInsnNode at = code.getFirst(); at != null; at = next) {
            next = at.getNext();
            Helper helper = ARITHMETIC.get(at.getOpcode());
            Integer move = MOVES.get(at.getOpcode());
            if (helper != null) {
                code.set(at, new MethodInsnNode(INVOKESTATIC, Library.SOFT_FLOAT, helper.name, helper.descriptor, false));
            } else if (move != null && at instanceof VarInsnNode) {
                ((VarInsnNode) at).setOpcode(move);
            } else if (move != null) {
                code.set(at, new InsnNode(move));
            } else if (ARRAYS.containsKey(at.getOpcode())) {
                code.set(at, ARRAYS.get(at.getOpcode()).clone(Map.of()));
            } else if (at.getOpcode() == NEWARRAY) {
                array(code, (IntInsnNode) at);
            } else {
                constant(code, at);
            }
        }
    }

    private static void array(InsnList code, IntInsnNode at) {
        if (at.operand == T_FLOAT) {
            code.set(at, new TypeInsnNode(ANEWARRAY, Library.FLOAT));
        } else if (at.operand == T_DOUBLE) {
            code.set(at, new TypeInsnNode(ANEWARRAY, Library.DOUBLE));
        }
    }

    private static void constant(InsnList code, AbstractInsnNode at) {
        switch (at.getOpcode()) {
            case FCONST_0:
            case FCONST_1:
            case FCONST_2:
                code.set(at, new LdcInsnNode(Float.floatToIntBits(at.getOpcode() - FCONST_0)));
                break;
            case DCONST_0:
                code.set(at, new InsnNode(LCONST_0));
                break;
            case DCONST_1:
                code.set(at, new LdcInsnNode(Double.doubleToLongBits(1)));
                break;
            default:
                break;
        }
    }
}
