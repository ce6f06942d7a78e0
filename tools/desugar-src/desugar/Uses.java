package desugar;

import java.util.LinkedHashSet;
import java.util.Set;
import org.objectweb.asm.Opcodes;
import org.objectweb.asm.Type;
import org.objectweb.asm.tree.AbstractInsnNode;
import org.objectweb.asm.tree.FieldInsnNode;
import org.objectweb.asm.tree.LdcInsnNode;
import org.objectweb.asm.tree.MethodInsnNode;
import org.objectweb.asm.tree.MethodNode;
import org.objectweb.asm.tree.MultiANewArrayInsnNode;
import org.objectweb.asm.tree.TryCatchBlockNode;
import org.objectweb.asm.tree.TypeInsnNode;

/** What the code of a method uses, each once: read once from a method after rewriting, however often that is followed. */
final class Uses {
    /** A member of a class or interface, by its name and descriptor. */
    record Member(String owner, String key) {}

    private final Hierarchy hierarchy;
    private final Set<String> named = new LinkedHashSet<>();
    private final Set<String> made = new LinkedHashSet<>();
    private final Set<String> arrays = new LinkedHashSet<>();
    private final Set<String> initialised = new LinkedHashSet<>();
    private final Set<String> texts = new LinkedHashSet<>();
    private final Set<Member> declared = new LinkedHashSet<>();
    private final Set<Member> selected = new LinkedHashSet<>();

    Uses(Hierarchy hierarchy, MethodNode method) {
        this.hierarchy = hierarchy;
        for (TryCatchBlockNode block : method.tryCatchBlocks) {
            if (block.type != null) {
                named.add(block.type);
            }
        }
        for (AbstractInsnNode at : method.instructions) {
            if (at instanceof MethodInsnNode) {
                take((MethodInsnNode) at);
            } else if (at instanceof FieldInsnNode) {
                take((FieldInsnNode) at);
            } else if (at instanceof TypeInsnNode) {
                take((TypeInsnNode) at);
            } else if (at instanceof MultiANewArrayInsnNode) {
                array(((MultiANewArrayInsnNode) at).desc);
            } else if (at instanceof LdcInsnNode && ((LdcInsnNode) at).cst instanceof String) {
                texts.add((String) ((LdcInsnNode) at).cst);
            }
        }
    }

    private void take(MethodInsnNode call) {
        if (call.owner.startsWith("[")) {
            return;
        }
        named.add(call.owner);
        String key = call.name + call.desc;
        String declarer = hierarchy.isBuiltin(call.owner) ? null : hierarchy.declarer(call.owner, key);
        if (declarer != null) {
            declared.add(new Member(declarer, key));
            if (call.getOpcode() == Opcodes.INVOKESTATIC) {
                initialised.add(declarer);
            }
        }
        if (call.getOpcode() == Opcodes.INVOKEVIRTUAL || call.getOpcode() == Opcodes.INVOKEINTERFACE) {
            selected.add(new Member(call.owner, key));
        }
    }

    private void take(FieldInsnNode use) {
        named.add(use.owner);
        if (use.getOpcode() == Opcodes.GETSTATIC || use.getOpcode() == Opcodes.PUTSTATIC) {
            initialised.add(use.owner);
        }
    }

    private void take(TypeInsnNode use) {
        named.add(use.desc);
        if (use.getOpcode() == Opcodes.NEW) {
            made.add(use.desc);
        } else if (use.getOpcode() == Opcodes.ANEWARRAY) {
            array("[" + Type.getObjectType(use.desc).getDescriptor());
        } else if (use.desc.startsWith("[")) {
            array(use.desc);
        }
    }

    private void array(String descriptor) {
        named.add(descriptor);
        for (String at = descriptor; at.startsWith("["); at = at.substring(1)) {
            arrays.add(at);
        }
    }

    /** Classes and arrays that it names in any way. */
    Set<String> named() {
        return named;
    }

    /** Classes of which it makes objects. */
    Set<String> made() {
        return made;
    }

    /** Types of arrays that it makes or names, with those of their elements. */
    Set<String> arrays() {
        return arrays;
    }

    /** Classes whose static methods or fields it uses. */
    Set<String> initialised() {
        return initialised;
    }

    /** Its string constants. */
    Set<String> texts() {
        return texts;
    }

    /** The methods that its calls name, where they are declared. */
    Set<Member> declared() {
        return declared;
    }

    /** The methods of calls that select by the object's class, as the calls name them. */
    Set<Member> selected() {
        return selected;
    }
}
