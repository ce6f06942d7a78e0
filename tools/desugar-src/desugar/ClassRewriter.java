package desugar;

import static org.objectweb.asm.Opcodes.ACC_BRIDGE;
import static org.objectweb.asm.Opcodes.ACC_DEPRECATED;
import static org.objectweb.asm.Opcodes.ACC_INTERFACE;
import static org.objectweb.asm.Opcodes.ACC_PRIVATE;
import static org.objectweb.asm.Opcodes.ACC_PUBLIC;
import static org.objectweb.asm.Opcodes.ACC_RECORD;
import static org.objectweb.asm.Opcodes.ACC_STRICT;
import static org.objectweb.asm.Opcodes.ACC_SYNCHRONIZED;
import static org.objectweb.asm.Opcodes.ATHROW;
import static org.objectweb.asm.Opcodes.DUP;
import static org.objectweb.asm.Opcodes.INVOKESTATIC;
import static org.objectweb.asm.Opcodes.V1_8;

import java.util.ArrayList;
import java.util.Arrays;
import java.util.HashMap;
import java.util.LinkedHashMap;
import java.util.LinkedHashSet;
import java.util.List;
import java.util.Map;
import org.objectweb.asm.tree.ClassNode;
import org.objectweb.asm.tree.FieldNode;
import org.objectweb.asm.tree.InsnList;
import org.objectweb.asm.tree.InsnNode;
import org.objectweb.asm.tree.LabelNode;
import org.objectweb.asm.tree.LdcInsnNode;
import org.objectweb.asm.tree.MethodInsnNode;
import org.objectweb.asm.tree.MethodNode;
import org.objectweb.asm.tree.TryCatchBlockNode;

/** Makes a class one of the subset, whole: what comes out depends on the class, those above it and those that it names alone. */
final class ClassRewriter {
    /**
     * A class after rewriting.
     *
     * @param node the class, with all its methods
     * @param cuts the cuts of a method, by its name and descriptor after rewriting
     */
    record Rewritten(ClassNode node, Map<String, List<Cut>> cuts) {}

    private final World world;
    private final Types types;
    private final Members members;
    private final Typing typing;

    ClassRewriter(World world) {
        this.world = world;
        this.types = new Types(world);
        this.members = new Members(world, types);
        this.typing = new Typing(world);
    }

    /** The class after rewriting; classes that are made for its lambdas are given to the world. */
    Rewritten rewrite(ClassNode original) {
        if (Library.isRaw(original.name)) {
            return new Rewritten(original, Map.of());
        }
        ClassNode node = new ClassNode();
        node.version = V1_8;
        node.access = original.access & ~(ACC_DEPRECATED | ACC_RECORD);
        node.name = original.name;
        node.superName = original.superName;
        node.interfaces = servedInterfaces(original);
        for (FieldNode field : original.fields) {
            node.fields.add(rewritten(field));
        }
        Map<String, List<Cut>> cuts = new HashMap<>();
        for (MethodNode method : original.methods) {
            MethodNode made = copy(original, method);
            int gone = types.countOfGone();
            Body body = new Body(world, types, original, made);
            new MethodRewriter(body).rewrite();
            for (ClassNode each : body.made) {
                world.define(each, world.originOf(original.name));
            }
            rename(original, made);
            if (types.countOfGone() > gone && !typing.isTyped(original, made)) {
                body.cutWhole("code with classes that aren't served");
            }
            if (made.name.equals("<clinit>")) {
                tellFailure(original.name, made);
            }
            node.methods.add(made);
            cuts.put(made.name + made.desc, body.standing());
        }
        withoutEqual(node);
        members.addTo(node);
        return new Rewritten(node, cuts);
    }

    /** An initialiser that calls anything tells what it ends with, where it doesn't return. */
    private static void tellFailure(String owner, MethodNode initialiser) {
        InsnList code = initialiser.instructions;
        if (owner.equals(Library.UNSERVED) || Arrays.stream(code.toArray()).noneMatch(MethodInsnNode.class::isInstance)) {
            return;
        }
        LabelNode start = new LabelNode();
        LabelNode handler = new LabelNode();
        code.insert(start);
        code.add(handler);
        code.add(new InsnNode(DUP));
        code.add(new LdcInsnNode(Types.dotted(owner)));
        code.add(new MethodInsnNode(INVOKESTATIC, Library.UNSERVED, "failed", "(Ljava/lang/Throwable;Ljava/lang/String;)V", false));
        code.add(new InsnNode(ATHROW));
        initialiser.tryCatchBlocks.add(new TryCatchBlockNode(start, handler, handler, Builtins.THROWABLE));
    }

    /** Of methods whose results became one, as those of a bridge and what it calls, the first that is no bridge stays. */
    private static void withoutEqual(ClassNode node) {
        Map<String, MethodNode> kept = new LinkedHashMap<>();
        for (MethodNode each : node.methods) {
            MethodNode other = kept.get(each.name + each.desc);
            if (other == null || (other.access & ACC_BRIDGE) != 0) {
                kept.put(each.name + each.desc, each);
            }
        }
        node.methods = new ArrayList<>(kept.values());
    }

    private List<String> servedInterfaces(ClassNode original) {
        LinkedHashSet<String> served = new LinkedHashSet<>(original.interfaces);
        served.removeIf(name -> world.get(name) == null);
        return new ArrayList<>(served);
    }

    private FieldNode rewritten(FieldNode field) {
        Object value = field.value;
        if (value instanceof Float) {
            value = Float.floatToIntBits((Float) value);
        } else if (value instanceof Double) {
            value = Double.doubleToLongBits((Double) value);
        }
        return new FieldNode(field.access & ~ACC_DEPRECATED, field.name, types.descriptor(field.desc), null, value);
    }

    private MethodNode copy(ClassNode owner, MethodNode method) {
        MethodNode made = new MethodNode(method.access, method.name, method.desc, null, null);
        method.accept(made);
        made.exceptions = null;
        made.visibleAnnotations = null;
        made.invisibleAnnotations = null;
        made.visibleParameterAnnotations = null;
        made.invisibleParameterAnnotations = null;
        made.visibleTypeAnnotations = null;
        made.invisibleTypeAnnotations = null;
        made.annotationDefault = null;
        made.parameters = null;
        made.localVariables = null;
        made.visibleLocalVariableAnnotations = null;
        made.invisibleLocalVariableAnnotations = null;
        made.attrs = null;
        return made;
    }

    private void rename(ClassNode owner, MethodNode method) {
        new Renaming(world, types).rewrite(method);
        boolean ofInterface = (owner.access & ACC_INTERFACE) != 0;
        if (Types.isPrivateInstance(method.access, method.name)) {
            method.name = types.privateName(owner.name, method.name);
            method.access &= ~ACC_PRIVATE;
        }
        method.access &= ~(ACC_SYNCHRONIZED | ACC_STRICT | ACC_DEPRECATED);
        if (ofInterface) {
            method.access = method.access & ~ACC_PRIVATE | ACC_PUBLIC;
        }
        String descriptor = method.desc;
        method.name = types.methodName(method.name, descriptor);
        if (method.name.equals("<init>")) {
            Renaming.makeRoom(method, types.marks(owner, descriptor));
            method.desc = types.constructorDescriptor(owner, descriptor);
        } else {
            method.desc = types.descriptor(descriptor);
        }
    }
}
