package desugar;

import static org.objectweb.asm.Opcodes.ACC_ABSTRACT;
import static org.objectweb.asm.Opcodes.ACC_BRIDGE;
import static org.objectweb.asm.Opcodes.ACONST_NULL;
import static org.objectweb.asm.Opcodes.ATHROW;

import java.util.BitSet;
import java.util.HashMap;
import java.util.HashSet;
import java.util.IdentityHashMap;
import java.util.List;
import java.util.Map;
import java.util.Set;
import java.util.function.Predicate;
import org.objectweb.asm.ClassWriter;
import org.objectweb.asm.tree.ClassNode;
import org.objectweb.asm.tree.InsnNode;
import org.objectweb.asm.tree.LineNumberNode;
import org.objectweb.asm.tree.AbstractInsnNode;
import org.objectweb.asm.tree.MethodNode;

/** Writes classes after rewriting, with stack maps. */
final class ClassFiles {
    private final World world;
    private final Map<ClassNode, Map<BitSet, byte[]>> made = new IdentityHashMap<>();

    ClassFiles(World world) {
        this.world = world;
    }

    /** The class file with these methods alone. */
    byte[] write(ClassNode node, Predicate<MethodNode> kept) {
        return written(node, kept, false);
    }

    /** The class file with the code of these methods; other methods are there, and their code throws null. */
    byte[] writeLean(ClassNode node, Predicate<MethodNode> kept) {
        return written(node, kept, true);
    }

    /** The class file, made once for the same node and methods, as several suites have it. */
    private byte[] written(ClassNode node, Predicate<MethodNode> kept, boolean stubs) {
        BitSet chosen = new BitSet();
        for (int i = 0; i < node.methods.size(); i++) {
            chosen.set(i, kept.test(node.methods.get(i)));
        }
        Map<BitSet, byte[]> known = made.computeIfAbsent(node, each -> new HashMap<>());
        return known.computeIfAbsent(chosen, each -> make(node, chosen, stubs));
    }

    private byte[] make(ClassNode node, BitSet chosen, boolean stubs) {
        ClassNode written = outline(node);
        for (int i = 0; i < node.methods.size(); i++) {
            MethodNode method = node.methods.get(i);
            if (chosen.get(i)) {
                withoutLines(method);
                written.methods.add(method);
            } else if (stubs && !method.name.equals("<clinit>")) {
                written.methods.add(stub(method));
            }
        }
        return bytes(written);
    }

    private static ClassNode outline(ClassNode node) {
        ClassNode written = new ClassNode();
        written.version = node.version;
        written.access = node.access;
        written.name = node.name;
        written.superName = node.superName;
        written.interfaces = node.interfaces;
        written.fields = node.fields;
        return written;
    }

    private static MethodNode stub(MethodNode method) {
        MethodNode stub = new MethodNode(method.access, method.name, method.desc, null, null);
        if ((method.access & ACC_ABSTRACT) == 0) {
            stub.instructions.add(new InsnNode(ACONST_NULL));
            stub.instructions.add(new InsnNode(ATHROW));
        }
        return stub;
    }

    private static void withoutLines(MethodNode method) {
        for (AbstractInsnNode at : method.instructions.toArray()) {
            if (at instanceof LineNumberNode) {
                method.instructions.remove(at);
            }
        }
    }

    /** Without bridges to a method that has the same name and descriptor once types that aren't served have become Object. */
    private static void withoutTwins(ClassNode node) {
        Set<String> own = new HashSet<>();
        node.methods.stream().filter(method -> (method.access & ACC_BRIDGE) == 0).forEach(method -> own.add(method.name + method.desc));
        node.methods.removeIf(method -> (method.access & ACC_BRIDGE) != 0 && !own.add(method.name + method.desc));
    }

    private byte[] bytes(ClassNode node) {
        withoutTwins(node);
        ClassWriter writer = new ClassWriter(ClassWriter.COMPUTE_FRAMES) {
            @Override
            protected String getCommonSuperClass(String one, String other) {
                return common(one, other);
            }
        };
        node.accept(writer);
        return writer.toByteArray();
    }

    /** The lowest class above both; Object where one is an interface. */
    private String common(String one, String other) {
        List<String> above = world.chain(one);
        if (world.isInterface(one) || world.isInterface(other)) {
            return one.equals(other) ? one : Builtins.OBJECT;
        }
        return world.chain(other).stream().filter(above::contains).findFirst().orElse(Builtins.OBJECT);
    }
}
