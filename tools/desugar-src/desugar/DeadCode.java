package desugar;

import java.util.ArrayDeque;
import java.util.Deque;
import java.util.HashSet;
import java.util.Set;
import org.objectweb.asm.Opcodes;
import org.objectweb.asm.tree.AbstractInsnNode;
import org.objectweb.asm.tree.JumpInsnNode;
import org.objectweb.asm.tree.LabelNode;
import org.objectweb.asm.tree.LookupSwitchInsnNode;
import org.objectweb.asm.tree.MethodNode;
import org.objectweb.asm.tree.TableSwitchInsnNode;
import org.objectweb.asm.tree.TryCatchBlockNode;

/** Takes out instructions that control doesn't reach, as those behind a cut, so that what they name isn't needed. */
final class DeadCode {
    private final MethodNode method;
    private final Set<AbstractInsnNode> reached = new HashSet<>();
    private final Deque<AbstractInsnNode> open = new ArrayDeque<>();

    private DeadCode(MethodNode method) {
        this.method = method;
    }

    static void remove(MethodNode method) {
        new DeadCode(method).remove();
    }

    private void remove() {
        open.add(method.instructions.getFirst());
        boolean more = true;
        while (more) {
            follow();
            more = false;
            for (TryCatchBlockNode block : method.tryCatchBlocks) {
                if (!reached.contains(block.handler) && covers(block)) {
                    open.add(block.handler);
                    more = true;
                }
            }
        }
        method.tryCatchBlocks.removeIf(block -> !covers(block));
        for (AbstractInsnNode at : method.instructions.toArray()) {
            if (!reached.contains(at) && !(at instanceof LabelNode)) {
                method.instructions.remove(at);
            }
        }
    }

    private void follow() {
        while (!open.isEmpty()) {
            for (AbstractInsnNode at = open.poll(); at != null && reached.add(at); at = passes(at) ? at.getNext() : null) {
                targets(at);
            }
        }
    }

    private void targets(AbstractInsnNode at) {
        if (at instanceof JumpInsnNode) {
            open.add(((JumpInsnNode) at).label);
        } else if (at instanceof TableSwitchInsnNode) {
            open.add(((TableSwitchInsnNode) at).dflt);
            open.addAll(((TableSwitchInsnNode) at).labels);
        } else if (at instanceof LookupSwitchInsnNode) {
            open.add(((LookupSwitchInsnNode) at).dflt);
            open.addAll(((LookupSwitchInsnNode) at).labels);
        }
    }

    /** Whether control may pass to the next instruction. */
    private static boolean passes(AbstractInsnNode at) {
        int opcode = at.getOpcode();
        boolean returns = opcode >= Opcodes.IRETURN && opcode <= Opcodes.RETURN;
        boolean switches = opcode == Opcodes.TABLESWITCH || opcode == Opcodes.LOOKUPSWITCH;
        return !returns && !switches && opcode != Opcodes.GOTO && opcode != Opcodes.ATHROW;
    }

    private boolean covers(TryCatchBlockNode block) {
        for (AbstractInsnNode at = block.start; at != null && at != block.end; at = at.getNext()) {
            if (at.getOpcode() >= 0 && reached.contains(at)) {
                return true;
            }
        }
        return false;
    }
}
