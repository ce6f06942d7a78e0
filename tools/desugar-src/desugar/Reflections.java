package desugar;

import static org.objectweb.asm.Opcodes.*;

import java.util.ArrayList;
import java.util.List;
import java.util.function.Consumer;
import java.util.stream.Collectors;
import java.util.stream.Stream;
import org.objectweb.asm.Type;
import org.objectweb.asm.tree.AnnotationNode;
import org.objectweb.asm.tree.ClassNode;
import org.objectweb.asm.tree.FieldInsnNode;
import org.objectweb.asm.tree.FieldNode;
import org.objectweb.asm.tree.InsnList;
import org.objectweb.asm.tree.InsnNode;
import org.objectweb.asm.tree.LabelNode;
import org.objectweb.asm.tree.LdcInsnNode;
import org.objectweb.asm.tree.MethodInsnNode;
import org.objectweb.asm.tree.MethodNode;
import org.objectweb.asm.tree.TableSwitchInsnNode;
import org.objectweb.asm.tree.TypeInsnNode;
import org.objectweb.asm.tree.VarInsnNode;

/**
 * For a class whose members are asked for by reflection: the table of its members, and a class beside it that uses each by its line in
 * that table. Its code is that of any Java class, and is rewritten as such.
 */
final class Reflections {
    static final String SUFFIX = "$$Reflected";
    static final String INVOKE = "(ILjava/lang/Object;[Ljava/lang/Object;)Ljava/lang/Object;";
    static final String CONSTRUCT = "(I[Ljava/lang/Object;)Ljava/lang/Object;";
    static final String GET = "(ILjava/lang/Object;)Ljava/lang/Object;";
    static final String SET = "(ILjava/lang/Object;Ljava/lang/Object;)V";

    private final ClassNode owner;
    private final List<Object> members;

    Reflections(ClassNode owner) {
        this.owner = owner;
        this.members = Stream.concat(owner.fields.stream(), owner.methods.stream().filter(each -> !each.name.equals("<clinit>")))
                .collect(Collectors.toList());
    }

    /** A line for each member: kind, name, access flags, type or result, parameters, annotations, what it throws; class tokens for the types. */
    String table(Types types) {
        List<String> lines = new ArrayList<>();
        for (Object member : members) {
            if (member instanceof FieldNode) {
                FieldNode field = (FieldNode) member;
                lines.add("F|" + field.name + "|" + field.access + "|" + types.token(Type.getType(field.desc)) + "||"
                        + annotations(field.visibleAnnotations, types));
            } else {
                MethodNode method = (MethodNode) member;
                String parameters =
                        Stream.of(Type.getArgumentTypes(method.desc)).map(types::token).collect(Collectors.joining(","));
                String kind = method.name.equals("<init>") ? "C" : "M";
                String thrown = method.exceptions.stream().map(each -> types.token(Type.getObjectType(each))).collect(Collectors.joining(","));
                lines.add(kind + "|" + method.name + "|" + method.access + "|" + types.token(Type.getReturnType(method.desc)) + "|" + parameters
                        + "|" + annotations(method.visibleAnnotations, types) + "|" + thrown);
            }
        }
        return String.join("\n", lines);
    }

    private static String annotations(List<AnnotationNode> found, Types types) {
        return found == null ? "" : found.stream().map(each -> types.token(Type.getType(each.desc))).collect(Collectors.joining(","));
    }

    /** The class beside it. */
    ClassNode make() {
        ClassNode node = new ClassNode();
        node.version = V1_8;
        node.access = ACC_PUBLIC | ACC_SYNTHETIC;
        node.name = owner.name + SUFFIX;
        node.superName = Builtins.OBJECT;
        boolean isAbstract = (owner.access & ACC_ABSTRACT) != 0;
        node.methods.add(choosing("invoke", INVOKE, member -> isMethod(member, false) ? code -> invoke(code, (MethodNode) member) : null));
        node.methods.add(choosing(
                "construct", CONSTRUCT, member -> isMethod(member, true) && !isAbstract ? code -> construct(code, (MethodNode) member) : null));
        node.methods.add(choosing("get", GET, member -> member instanceof FieldNode ? code -> get(code, (FieldNode) member) : null));
        node.methods.add(choosing("set", SET, member -> isSettable(member) ? code -> set(code, (FieldNode) member) : null));
        return node;
    }

    private static boolean isMethod(Object member, boolean constructor) {
        return member instanceof MethodNode && ((MethodNode) member).name.equals("<init>") == constructor;
    }

    private static boolean isSettable(Object member) {
        int constant = ACC_STATIC | ACC_FINAL;
        return member instanceof FieldNode && (((FieldNode) member).access & constant) != constant;
    }

    private interface Use {
        /** The code that uses the member and returns; null where the method doesn't serve it. */
        Consumer<InsnList> of(Object member);
    }

    /** A static method that switches on the line of a member. */
    private MethodNode choosing(String name, String descriptor, Use use) {
        MethodNode method = new MethodNode(ACC_PUBLIC | ACC_STATIC, name, descriptor, null, null);
        InsnList code = method.instructions;
        LabelNode none = new LabelNode();
        LabelNode[] labels = new LabelNode[members.size()];
        for (int i = 0; i < labels.length; i++) {
            labels[i] = use.of(members.get(i)) == null ? none : new LabelNode();
        }
        if (labels.length > 0) {
            code.add(new VarInsnNode(ILOAD, 0));
            code.add(new TableSwitchInsnNode(0, labels.length - 1, none, labels));
        }
        for (int i = 0; i < labels.length; i++) {
            if (labels[i] != none) {
                code.add(labels[i]);
                use.of(members.get(i)).accept(code);
            }
        }
        code.add(none);
        code.add(new TypeInsnNode(NEW, "java/lang/IllegalArgumentException"));
        code.add(new InsnNode(DUP));
        code.add(new MethodInsnNode(INVOKESPECIAL, "java/lang/IllegalArgumentException", "<init>", "()V", false));
        code.add(new InsnNode(ATHROW));
        method.maxLocals = 4;
        return method;
    }

    private void invoke(InsnList code, MethodNode method) {
        boolean isStatic = Types.isStatic(method);
        boolean ofInterface = (owner.access & ACC_INTERFACE) != 0;
        if (!isStatic) {
            code.add(new VarInsnNode(ALOAD, 1));
            code.add(new TypeInsnNode(CHECKCAST, owner.name));
        }
        arguments(code, method.desc, 2);
        int opcode = isStatic ? INVOKESTATIC : ofInterface ? INVOKEINTERFACE : INVOKEVIRTUAL;
        code.add(new MethodInsnNode(opcode, owner.name, method.name, method.desc, ofInterface));
        giveBack(code, Type.getReturnType(method.desc));
    }

    private void construct(InsnList code, MethodNode method) {
        code.add(new TypeInsnNode(NEW, owner.name));
        code.add(new InsnNode(DUP));
        arguments(code, method.desc, 1);
        code.add(new MethodInsnNode(INVOKESPECIAL, owner.name, "<init>", method.desc, false));
        code.add(new InsnNode(ARETURN));
    }

    private static void arguments(InsnList code, String descriptor, int array) {
        Type[] parameters = Type.getArgumentTypes(descriptor);
        for (int i = 0; i < parameters.length; i++) {
            code.add(new VarInsnNode(ALOAD, array));
            code.add(new LdcInsnNode(i));
            code.add(new InsnNode(AALOAD));
            ofObject(code, parameters[i]);
        }
    }

    private static void ofObject(InsnList code, Type type) {
        Type object = Type.getObjectType(Builtins.OBJECT);
        Conversions.convert(code, object, object, type);
    }

    private static void giveBack(InsnList code, Type given) {
        if (given.getSort() == Type.VOID) {
            code.add(new InsnNode(ACONST_NULL));
        } else if (given.getSort() < Type.ARRAY) {
            Conversions.box(code, given);
        }
        code.add(new InsnNode(ARETURN));
    }

    private void get(InsnList code, FieldNode field) {
        boolean isStatic = (field.access & ACC_STATIC) != 0;
        target(code, isStatic);
        code.add(new FieldInsnNode(isStatic ? GETSTATIC : GETFIELD, owner.name, field.name, field.desc));
        giveBack(code, Type.getType(field.desc));
    }

    private void set(InsnList code, FieldNode field) {
        boolean isStatic = (field.access & ACC_STATIC) != 0;
        target(code, isStatic);
        code.add(new VarInsnNode(ALOAD, 2));
        ofObject(code, Type.getType(field.desc));
        code.add(new FieldInsnNode(isStatic ? PUTSTATIC : PUTFIELD, owner.name, field.name, field.desc));
        code.add(new InsnNode(RETURN));
    }

    private void target(InsnList code, boolean isStatic) {
        if (!isStatic) {
            code.add(new VarInsnNode(ALOAD, 1));
            code.add(new TypeInsnNode(CHECKCAST, owner.name));
        }
    }
}
