package desugar;

import static org.objectweb.asm.Opcodes.DUP;
import static org.objectweb.asm.Opcodes.GETSTATIC;
import static org.objectweb.asm.Opcodes.INVOKESPECIAL;
import static org.objectweb.asm.Opcodes.NEW;
import static org.objectweb.asm.Opcodes.PUTSTATIC;

import org.objectweb.asm.tree.ClassNode;
import org.objectweb.asm.tree.FieldInsnNode;
import org.objectweb.asm.tree.InsnNode;
import org.objectweb.asm.tree.MethodInsnNode;
import org.objectweb.asm.tree.TypeInsnNode;

/** Accesses of fields: a static one through the class that declares it, one of a built-in class by a helper's, a cache made anew. */
final class FieldUses {
    private static final String STREAMS = Library.HELPERS + "Streams";

    private final Body body;

    FieldUses(Body body) {
        this.body = body;
    }

    void rewrite(FieldInsnNode use) {
        if (use.owner.equals("java/lang/System") && !use.name.equals("in")) {
            use.owner = STREAMS;
            return;
        }
        if (body.world.builtins.has(use.owner) || use.owner.equals(Types.CLASS) || use.owner.equals(Types.BUILDER)) {
            ofBuiltin(use);
            return;
        }
        String made = use.getOpcode() == GETSTATIC ? body.world.madeAnew(use.owner, use.name, use.desc) : null;
        if (made != null) {
            body.code.insertBefore(use, new TypeInsnNode(NEW, made));
            body.code.insertBefore(use, new InsnNode(DUP));
            body.code.set(use, new MethodInsnNode(INVOKESPECIAL, made, "<init>", "()V", false));
            return;
        }
        String declarer = body.world.resolveField(use.owner, use.name, use.desc);
        if (declarer == null) {
            body.cut(use, Types.dotted(use.owner) + "." + use.name);
        } else if (use.getOpcode() == GETSTATIC || use.getOpcode() == PUTSTATIC) {
            use.owner = declarer;
        }
    }

    private void ofBuiltin(FieldInsnNode use) {
        ClassNode helpers = body.world.get(Library.helpersOf(use.owner));
        if (use.getOpcode() == GETSTATIC && World.field(helpers, use.name, use.desc) != null) {
            use.owner = helpers.name;
        } else if (!body.world.builtins.has(use.owner) || !body.world.builtins.hasField(use.owner, use.name, use.desc)) {
            body.cut(use, Types.dotted(use.owner) + "." + use.name);
        }
    }
}
