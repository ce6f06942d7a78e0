package desugar;

import static org.objectweb.asm.Opcodes.ACC_ABSTRACT;
import static org.objectweb.asm.Opcodes.ACC_FINAL;
import static org.objectweb.asm.Opcodes.ACC_INTERFACE;
import static org.objectweb.asm.Opcodes.ACC_PUBLIC;
import static org.objectweb.asm.Opcodes.ACC_STATIC;
import static org.objectweb.asm.Opcodes.ACONST_NULL;
import static org.objectweb.asm.Opcodes.ALOAD;
import static org.objectweb.asm.Opcodes.ARETURN;
import static org.objectweb.asm.Opcodes.ASTORE;
import static org.objectweb.asm.Opcodes.DUP;
import static org.objectweb.asm.Opcodes.GETFIELD;
import static org.objectweb.asm.Opcodes.INVOKESPECIAL;
import static org.objectweb.asm.Opcodes.INVOKESTATIC;
import static org.objectweb.asm.Opcodes.NEW;
import static org.objectweb.asm.Opcodes.PUTFIELD;
import static org.objectweb.asm.Opcodes.RETURN;

import org.objectweb.asm.Type;
import org.objectweb.asm.tree.ClassNode;
import org.objectweb.asm.tree.FieldInsnNode;
import org.objectweb.asm.tree.FieldNode;
import org.objectweb.asm.tree.InsnList;
import org.objectweb.asm.tree.InsnNode;
import org.objectweb.asm.tree.LdcInsnNode;
import org.objectweb.asm.tree.MethodInsnNode;
import org.objectweb.asm.tree.MethodNode;
import org.objectweb.asm.tree.TypeInsnNode;
import org.objectweb.asm.tree.VarInsnNode;

/** Members that classes get: their token, their text, a cause, a copy of the object, and a method that initialises them. */
final class Members {
    static final String CAUSE = "$cause";
    static final String CLASS = "$class";
    static final String CLONE = "$clone";
    static final String INITIALISE = "$init";
    private static final String THROWABLE = "Ljava/lang/Throwable;";
    private static final String BARE = "(L" + Library.BARE + ";)V";

    private final World world;
    private final Types types;

    Members(World world, Types types) {
        this.world = world;
        this.types = types;
    }

    /** Adds them to a class whose own methods are rewritten already. */
    void addTo(ClassNode node) {
        if (world.ancestors(node.name).stream().anyMatch(above -> World.method(world.get(above), "<clinit>", "()V") != null)) {
            simple(node, ACC_PUBLIC | ACC_STATIC, INITIALISE, "()V").add(new InsnNode(RETURN));
        }
        if ((node.access & ACC_INTERFACE) != 0 || Library.isHelper(node.name) && !node.name.equals(Library.UNSERVED)) {
            return;
        }
        token(node);
        if (world.builtins.has(node.superName) && World.method(node, "toString", "()Ljava/lang/String;") == null) {
            text(node);
        }
        if (world.builtins.isThrowable(node.superName)) {
            cause(node);
        }
        boolean cloned = world.isSubtype(node.name, "java/lang/Cloneable");
        if (cloned || (node.access & ACC_FINAL) == 0) {
            bareConstructor(node);
        }
        if (cloned && (node.access & ACC_ABSTRACT) == 0) {
            copy(node);
        }
    }

    private static InsnList simple(ClassNode node, int access, String name, String descriptor) {
        MethodNode method = new MethodNode(access, name, descriptor, null, null);
        node.methods.add(method);
        return method.instructions;
    }

    private void token(ClassNode node) {
        node.interfaces.add(Library.INSTANCE);
        InsnList code = simple(node, ACC_PUBLIC, CLASS, "()Ljava/lang/String;");
        code.add(new LdcInsnNode(types.token(Type.getObjectType(Throwables.shown(node)))));
        code.add(new InsnNode(ARETURN));
    }

    private void text(ClassNode node) {
        boolean throwable = world.builtins.isThrowable(node.superName);
        String helpers = Library.helpersOf(throwable ? Builtins.THROWABLE : Builtins.OBJECT);
        String parameter = throwable ? THROWABLE : "Ljava/lang/Object;";
        InsnList code = simple(node, ACC_PUBLIC, "toString", "()Ljava/lang/String;");
        code.add(new VarInsnNode(ALOAD, 0));
        code.add(new MethodInsnNode(INVOKESTATIC, helpers, "superToString", "(" + parameter + ")Ljava/lang/String;", false));
        code.add(new InsnNode(ARETURN));
    }

    private void cause(ClassNode node) {
        node.interfaces.add(Library.HAS_CAUSE);
        node.fields.add(new FieldNode(0, CAUSE, THROWABLE, null, null));
        InsnList set = simple(node, ACC_PUBLIC, CAUSE, "(" + THROWABLE + ")V");
        set.add(new VarInsnNode(ALOAD, 0));
        set.add(new VarInsnNode(ALOAD, 1));
        set.add(new FieldInsnNode(PUTFIELD, node.name, CAUSE, THROWABLE));
        set.add(new InsnNode(RETURN));
        getCause(node, CAUSE);
        if (World.method(node, "getCause", "()" + THROWABLE) == null) {
            getCause(node, "getCause");
        }
    }

    private void getCause(ClassNode node, String name) {
        InsnList get = simple(node, ACC_PUBLIC, name, "()" + THROWABLE);
        get.add(new VarInsnNode(ALOAD, 0));
        get.add(new FieldInsnNode(GETFIELD, node.name, CAUSE, THROWABLE));
        get.add(new InsnNode(ARETURN));
    }

    /** A constructor that runs none of the class's code, for copies. */
    private void bareConstructor(ClassNode node) {
        InsnList code = simple(node, ACC_PUBLIC, "<init>", BARE);
        code.add(new VarInsnNode(ALOAD, 0));
        if (world.builtins.has(node.superName)) {
            code.add(new MethodInsnNode(INVOKESPECIAL, node.superName, "<init>", "()V", false));
        } else {
            code.add(new InsnNode(ACONST_NULL));
            code.add(new MethodInsnNode(INVOKESPECIAL, node.superName, "<init>", BARE, false));
        }
        code.add(new InsnNode(RETURN));
    }

    /** `$clone`: a bare object with the fields of this one, those of the classes above included. */
    private void copy(ClassNode node) {
        node.interfaces.add(Library.HAS_CLONE);
        InsnList code = simple(node, ACC_PUBLIC, CLONE, "()Ljava/lang/Object;");
        code.add(new TypeInsnNode(NEW, node.name));
        code.add(new InsnNode(DUP));
        code.add(new InsnNode(ACONST_NULL));
        code.add(new MethodInsnNode(INVOKESPECIAL, node.name, "<init>", BARE, false));
        code.add(new VarInsnNode(ASTORE, 1));
        for (ClassNode at = world.get(node.name); at != null; at = world.get(at.superName)) {
            for (FieldNode field : at.fields) {
                if ((field.access & ACC_STATIC) == 0) {
                    copyField(code, at.name, field);
                }
            }
        }
        code.add(new VarInsnNode(ALOAD, 1));
        code.add(new InsnNode(ARETURN));
    }

    private void copyField(InsnList code, String owner, FieldNode field) {
        String descriptor = types.descriptor(field.desc);
        code.add(new VarInsnNode(ALOAD, 1));
        code.add(new VarInsnNode(ALOAD, 0));
        code.add(new FieldInsnNode(GETFIELD, owner, field.name, descriptor));
        code.add(new FieldInsnNode(PUTFIELD, owner, field.name, descriptor));
    }
}
