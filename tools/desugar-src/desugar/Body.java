package desugar;

import java.util.ArrayList;
import java.util.List;
import java.util.Map;
import org.objectweb.asm.Opcodes;
import org.objectweb.asm.tree.AbstractInsnNode;
import org.objectweb.asm.tree.ClassNode;
import org.objectweb.asm.tree.InsnList;
import org.objectweb.asm.tree.InsnNode;
import org.objectweb.asm.tree.LdcInsnNode;
import org.objectweb.asm.tree.LineNumberNode;
import org.objectweb.asm.tree.MethodInsnNode;
import org.objectweb.asm.tree.MethodNode;
import org.objectweb.asm.tree.TypeInsnNode;

/** The code of one method while it is rewritten: its world, and the edits that all tricks share. */
final class Body {
    final World world;
    final Types types;
    final ClassNode owner;
    final MethodNode method;
    final InsnList code;
    /** Classes made for this method, such as those of its lambdas; their code is still to be rewritten. */
    final List<ClassNode> made = new ArrayList<>();
    /** What stands for each cut: the first instruction of the throw. */
    private final List<Map.Entry<AbstractInsnNode, Cut>> cuts = new ArrayList<>();

    Body(World world, Types types, ClassNode owner, MethodNode method) {
        this.world = world;
        this.types = types;
        this.owner = owner;
        this.method = method;
        this.code = method.instructions;
    }

    boolean isHelper() {
        return Library.isHelper(owner.name);
    }

    /** Puts a call of a static method before an instruction. */
    void callBefore(AbstractInsnNode at, String owner, String name, String descriptor) {
        code.insertBefore(at, new MethodInsnNode(Opcodes.INVOKESTATIC, owner, name, descriptor, false));
    }

    /** Makes a call one of a static method, whose parameters are what stands on the stack. */
    static void redirect(MethodInsnNode call, String owner, String name, String descriptor) {
        call.setOpcode(Opcodes.INVOKESTATIC);
        call.owner = owner;
        call.name = name;
        call.desc = descriptor;
        call.itf = false;
    }

    /** The instruction becomes a throw of `Unserved`; what stands behind it up to the next target is dead. */
    void cut(AbstractInsnNode at, String what) {
        Cut cut = new Cut(new MethodRef(owner.name, method.name, method.desc), lineOf(at), what, Remedies.of(what));
        InsnList thrown = new InsnList();
        AbstractInsnNode first = new TypeInsnNode(Opcodes.NEW, Library.UNSERVED);
        thrown.add(first);
        thrown.add(new InsnNode(Opcodes.DUP));
        thrown.add(new LdcInsnNode(cut.message()));
        thrown.add(new MethodInsnNode(Opcodes.INVOKESPECIAL, Library.UNSERVED, "<init>", "(Ljava/lang/String;)V", false));
        thrown.add(new InsnNode(Opcodes.ATHROW));
        code.insertBefore(at, thrown);
        code.remove(at);
        cuts.add(Map.entry(first, cut));
    }

    /** The whole code becomes such a throw. */
    void cutWhole(String what) {
        code.clear();
        method.tryCatchBlocks.clear();
        InsnNode only = new InsnNode(Opcodes.NOP);
        code.add(only);
        cut(only, what);
    }

    /** The cuts that still stand in the code. */
    List<Cut> standing() {
        List<Cut> standing = new ArrayList<>();
        for (Map.Entry<AbstractInsnNode, Cut> each : cuts) {
            if (code.contains(each.getKey())) {
                standing.add(each.getValue());
            }
        }
        return standing;
    }

    private static int lineOf(AbstractInsnNode at) {
        for (AbstractInsnNode before = at; before != null; before = before.getPrevious()) {
            if (before instanceof LineNumberNode) {
                return ((LineNumberNode) before).line;
            }
        }
        return 0;
    }

    /** Room for one more local variable. */
    int newLocal(int size) {
        int local = method.maxLocals;
        method.maxLocals += size;
        return local;
    }

    /** The next instruction that is one. */
    static AbstractInsnNode next(AbstractInsnNode at) {
        AbstractInsnNode next = at.getNext();
        while (next != null && next.getOpcode() < 0) {
            next = next.getNext();
        }
        return next;
    }
}
