package desugar;

import org.objectweb.asm.Opcodes;
import org.objectweb.asm.Type;
import org.objectweb.asm.tree.ClassNode;
import org.objectweb.asm.tree.MethodNode;
import org.objectweb.asm.tree.analysis.Analyzer;
import org.objectweb.asm.tree.analysis.AnalyzerException;
import org.objectweb.asm.tree.analysis.BasicValue;
import org.objectweb.asm.tree.analysis.SimpleVerifier;

/**
 * Whether a method's code is typed after rewriting (JVMS 4.10.1), which may fail where a class that isn't served became Object. Asked for
 * such methods alone.
 */
final class Typing {
    private static final int ROOM = 32;

    private final World world;

    Typing(World world) {
        this.world = world;
    }

    boolean isTyped(ClassNode owner, MethodNode method) {
        if (method.instructions.size() == 0) {
            return true;
        }
        int stack = method.maxStack;
        method.maxStack = stack + ROOM;
        try {
            Analyzer<BasicValue> analyzer = new Analyzer<>(new Verifier(owner));
            analyzer.analyze(owner.name, method);
            return true;
        } catch (AnalyzerException fault) {
            return false;
        } finally {
            method.maxStack = stack;
        }
    }

    private final class Verifier extends SimpleVerifier {
        Verifier(ClassNode owner) {
            super(Opcodes.ASM9, Type.getObjectType(owner.name), Type.getObjectType(owner.superName), null,
                    (owner.access & Opcodes.ACC_INTERFACE) != 0);
        }

        @Override
        protected boolean isInterface(Type type) {
            return type.getSort() == Type.OBJECT && world.isInterface(type.getInternalName());
        }

        @Override
        protected Type getSuperClass(Type type) {
            String above = type.getSort() == Type.ARRAY ? Builtins.OBJECT : world.superOf(type.getInternalName());
            return above == null ? null : Type.getObjectType(above);
        }

        @Override
        protected boolean isAssignableFrom(Type above, Type type) {
            if (above.equals(type) || above.getInternalName().equals(Builtins.OBJECT) || isInterface(above)) {
                return true;
            }
            if (above.getSort() == Type.ARRAY && type.getSort() == Type.ARRAY) {
                return elementsAssignable(above, type);
            }
            return type.getSort() == Type.OBJECT && above.getSort() == Type.OBJECT
                    && world.chain(type.getInternalName()).contains(above.getInternalName());
        }

        private boolean elementsAssignable(Type above, Type type) {
            Type one = Type.getType(above.getDescriptor().substring(1));
            Type other = Type.getType(type.getDescriptor().substring(1));
            boolean references = one.getSort() >= Type.ARRAY && other.getSort() >= Type.ARRAY;
            return references ? isAssignableFrom(one, other) : one.equals(other);
        }
    }
}
