package desugar;

import static org.objectweb.asm.Opcodes.CHECKCAST;
import static org.objectweb.asm.Opcodes.F2D;
import static org.objectweb.asm.Opcodes.I2D;
import static org.objectweb.asm.Opcodes.I2F;
import static org.objectweb.asm.Opcodes.I2L;
import static org.objectweb.asm.Opcodes.INVOKESTATIC;
import static org.objectweb.asm.Opcodes.INVOKEVIRTUAL;
import static org.objectweb.asm.Opcodes.L2D;
import static org.objectweb.asm.Opcodes.L2F;

import java.util.Map;
import org.objectweb.asm.Type;
import org.objectweb.asm.tree.InsnList;
import org.objectweb.asm.tree.InsnNode;
import org.objectweb.asm.tree.MethodInsnNode;
import org.objectweb.asm.tree.TypeInsnNode;

/** The conversions that a lambda's arguments and result undergo: casts, boxing, unboxing and widening. */
final class Conversions {
    private static final Map<Integer, String> BOXES = Map.of(
            Type.BOOLEAN, "java/lang/Boolean", Type.CHAR, "java/lang/Character", Type.BYTE, "java/lang/Byte",
            Type.SHORT, "java/lang/Short", Type.INT, "java/lang/Integer", Type.FLOAT, "java/lang/Float",
            Type.LONG, "java/lang/Long", Type.DOUBLE, "java/lang/Double");
    private static final Map<String, Type> UNBOXED = Map.of(
            "java/lang/Boolean", Type.BOOLEAN_TYPE, "java/lang/Character", Type.CHAR_TYPE, "java/lang/Byte", Type.BYTE_TYPE,
            "java/lang/Short", Type.SHORT_TYPE, "java/lang/Integer", Type.INT_TYPE, "java/lang/Float", Type.FLOAT_TYPE,
            "java/lang/Long", Type.LONG_TYPE, "java/lang/Double", Type.DOUBLE_TYPE);
    private static final Map<String, Integer> WIDENING =
            Map.of("IJ", I2L, "IF", I2F, "ID", I2D, "JF", L2F, "JD", L2D, "FD", F2D);

    private Conversions() {}

    /**
     * Adds code that makes of the value on the stack one of the type `to`.
     *
     * @param from its type there
     * @param known the type that it is known to have, where that says more
     */
    static void convert(InsnList code, Type from, Type known, Type to) {
        boolean isPrimitive = from.getSort() < Type.ARRAY;
        boolean toPrimitive = to.getSort() < Type.ARRAY;
        if (to.getSort() == Type.VOID) {
            return;
        }
        if (isPrimitive && toPrimitive) {
            widen(code, from, to);
        } else if (isPrimitive) {
            box(code, from);
        } else if (toPrimitive) {
            unbox(code, known, to);
        } else {
            Type wanted = known.equals(from) ? to : known;
            if (!wanted.getInternalName().equals(Builtins.OBJECT) && !wanted.equals(from)) {
                code.add(new TypeInsnNode(CHECKCAST, wanted.getInternalName()));
            }
        }
    }

    static void box(InsnList code, Type from) {
        String box = BOXES.get(from.getSort());
        code.add(new MethodInsnNode(INVOKESTATIC, box, "valueOf", "(" + from.getDescriptor() + ")L" + box + ";", false));
    }

    private static void unbox(InsnList code, Type known, Type to) {
        String box = UNBOXED.containsKey(known.getInternalName()) ? known.getInternalName() : BOXES.get(to.getSort());
        Type held = UNBOXED.get(box);
        code.add(new TypeInsnNode(CHECKCAST, box));
        code.add(new MethodInsnNode(INVOKEVIRTUAL, box, held.getClassName() + "Value", "()" + held.getDescriptor(), false));
        widen(code, held, to);
    }

    private static void widen(InsnList code, Type from, Type to) {
        Integer opcode = WIDENING.get(letter(from) + letter(to));
        if (opcode != null) {
            code.add(new InsnNode(opcode));
        }
    }

    private static String letter(Type type) {
        return type.getSort() <= Type.INT ? "I" : type.getDescriptor();
    }
}
