package desugar;

import static org.objectweb.asm.Opcodes.ANEWARRAY;

import org.objectweb.asm.Type;
import org.objectweb.asm.tree.AbstractInsnNode;
import org.objectweb.asm.tree.FieldInsnNode;
import org.objectweb.asm.tree.IincInsnNode;
import org.objectweb.asm.tree.MethodInsnNode;
import org.objectweb.asm.tree.MethodNode;
import org.objectweb.asm.tree.MultiANewArrayInsnNode;
import org.objectweb.asm.tree.TypeInsnNode;
import org.objectweb.asm.tree.VarInsnNode;

/** The last step on a method's code: names and descriptors become those of the subset. */
final class Renaming {
    private final World world;
    private final Types types;

    Renaming(World world, Types types) {
        this.world = world;
        this.types = types;
    }

    void rewrite(MethodNode method) {
        for (AbstractInsnNode at : method.instructions) {
            if (at instanceof MethodInsnNode) {
                call((MethodInsnNode) at);
            } else if (at instanceof FieldInsnNode) {
                FieldInsnNode use = (FieldInsnNode) at;
                use.owner = types.name(use.owner);
                use.desc = types.descriptor(use.desc);
            } else if (at instanceof TypeInsnNode) {
                TypeInsnNode use = (TypeInsnNode) at;
                boolean element = use.getOpcode() == ANEWARRAY && Types.OF_STRING.contains(use.desc);
                use.desc = element ? Builtins.OBJECT : types.name(use.desc);
            } else if (at instanceof MultiANewArrayInsnNode) {
                MultiANewArrayInsnNode use = (MultiANewArrayInsnNode) at;
                use.desc = types.descriptor(use.desc);
            }
        }
    }

    private void call(MethodInsnNode call) {
        String descriptor = call.desc;
        if (world.builtins.has(call.owner)) {
            call.desc = types.descriptor(descriptor);
        } else if (call.name.equals("<init>")) {
            call.desc = types.constructorDescriptor(world.get(call.owner), descriptor);
        } else {
            call.name = types.methodName(call.name, descriptor);
            call.desc = types.descriptor(descriptor);
        }
        call.owner = types.name(call.owner);
    }

    /** Moves the locals behind a constructor's parameters, so that its marks have a place. */
    static void makeRoom(MethodNode method, int marks) {
        if (marks <= 0) {
            return;
        }
        int from = Type.getArgumentsAndReturnSizes(method.desc) >> 2;
        for (AbstractInsnNode at : method.instructions) {
            if (at instanceof VarInsnNode && ((VarInsnNode) at).var >= from) {
                ((VarInsnNode) at).var += marks;
            } else if (at instanceof IincInsnNode && ((IincInsnNode) at).var >= from) {
                ((IincInsnNode) at).var += marks;
            }
        }
        method.maxLocals += marks;
    }
}
