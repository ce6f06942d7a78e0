package desugar;

import static org.objectweb.asm.Opcodes.ACC_PUBLIC;
import static org.objectweb.asm.Opcodes.ACC_STATIC;
import static org.objectweb.asm.Opcodes.ACC_SYNTHETIC;
import static org.objectweb.asm.Opcodes.ALOAD;
import static org.objectweb.asm.Opcodes.ARETURN;
import static org.objectweb.asm.Opcodes.CHECKCAST;
import static org.objectweb.asm.Opcodes.DUP;
import static org.objectweb.asm.Opcodes.GETFIELD;
import static org.objectweb.asm.Opcodes.H_INVOKESTATIC;
import static org.objectweb.asm.Opcodes.H_NEWINVOKESPECIAL;
import static org.objectweb.asm.Opcodes.ILOAD;
import static org.objectweb.asm.Opcodes.INVOKEINTERFACE;
import static org.objectweb.asm.Opcodes.INVOKESPECIAL;
import static org.objectweb.asm.Opcodes.INVOKESTATIC;
import static org.objectweb.asm.Opcodes.INVOKEVIRTUAL;
import static org.objectweb.asm.Opcodes.IRETURN;
import static org.objectweb.asm.Opcodes.NEW;
import static org.objectweb.asm.Opcodes.POP;
import static org.objectweb.asm.Opcodes.POP2;
import static org.objectweb.asm.Opcodes.PUTFIELD;
import static org.objectweb.asm.Opcodes.RETURN;
import static org.objectweb.asm.Opcodes.V1_8;

import java.util.ArrayList;
import java.util.Arrays;
import java.util.List;
import org.objectweb.asm.Handle;
import org.objectweb.asm.Type;
import org.objectweb.asm.tree.ClassNode;
import org.objectweb.asm.tree.FieldInsnNode;
import org.objectweb.asm.tree.FieldNode;
import org.objectweb.asm.tree.InsnList;
import org.objectweb.asm.tree.InsnNode;
import org.objectweb.asm.tree.InvokeDynamicInsnNode;
import org.objectweb.asm.tree.MethodInsnNode;
import org.objectweb.asm.tree.MethodNode;
import org.objectweb.asm.tree.TypeInsnNode;
import org.objectweb.asm.tree.VarInsnNode;

/** Each lambda or method reference becomes a class, with a field for each value that it holds (JVMS and `LambdaMetafactory`). */
final class Lambdas {
    private static final int SERIALIZABLE = 1;
    private static final int MARKERS = 2;
    private static final int BRIDGES = 4;

    private final Body body;

    Lambdas(Body body) {
        this.body = body;
    }

    void rewrite(InvokeDynamicInsnNode site) {
        String interfaceName = Type.getReturnType(site.desc).getInternalName();
        if (!body.world.exists(interfaceName)) {
            body.cut(site, "lambda of " + Types.dotted(interfaceName));
            return;
        }
        ClassNode lambda = new ClassNode();
        lambda.version = V1_8;
        lambda.access = ACC_PUBLIC | ACC_SYNTHETIC;
        lambda.name = nameFor();
        lambda.superName = Builtins.OBJECT;
        lambda.interfaces.add(interfaceName);
        lambda.methods.add(constructor());
        MethodNode made = maker(lambda, site.desc);
        lambda.methods.add(made);
        lambda.methods.add(function(lambda, site));
        extras(lambda, site);
        body.made.add(lambda);
        body.world.define(lambda, body.world.originOf(body.owner.name));
        body.code.set(site, new MethodInsnNode(INVOKESTATIC, lambda.name, made.name, made.desc, false));
    }

    /** The next free name for a class of a lambda of this one. */
    private String nameFor() {
        int number = 1;
        while (body.world.get(body.owner.name + "$Lambda" + number) != null) {
            number++;
        }
        return body.owner.name + "$Lambda" + number;
    }

    private static MethodNode constructor() {
        MethodNode method = new MethodNode(ACC_PUBLIC, "<init>", "()V", null, null);
        method.instructions.add(new VarInsnNode(ALOAD, 0));
        method.instructions.add(new MethodInsnNode(INVOKESPECIAL, Builtins.OBJECT, "<init>", "()V", false));
        method.instructions.add(new InsnNode(RETURN));
        method.maxLocals = 1;
        return method;
    }

    /** The static method that makes the object and fills its fields. */
    private static MethodNode maker(ClassNode lambda, String siteDescriptor) {
        Type[] held = Type.getArgumentTypes(siteDescriptor);
        String descriptor = Type.getMethodDescriptor(Type.getObjectType(lambda.name), held);
        MethodNode method = new MethodNode(ACC_PUBLIC | ACC_STATIC, "make", descriptor, null, null);
        InsnList code = method.instructions;
        code.add(new TypeInsnNode(NEW, lambda.name));
        code.add(new InsnNode(DUP));
        code.add(new MethodInsnNode(INVOKESPECIAL, lambda.name, "<init>", "()V", false));
        int local = 0;
        for (int i = 0; i < held.length; i++) {
            lambda.fields.add(new FieldNode(ACC_PUBLIC, "held" + i, held[i].getDescriptor(), null, null));
            code.add(new InsnNode(DUP));
            code.add(new VarInsnNode(held[i].getOpcode(ILOAD), local));
            code.add(new FieldInsnNode(PUTFIELD, lambda.name, "held" + i, held[i].getDescriptor()));
            local += held[i].getSize();
        }
        code.add(new InsnNode(ARETURN));
        method.maxLocals = local;
        return method;
    }

    /** The interface's method: it calls the implementation with what is held and with its own arguments. */
    private static MethodNode function(ClassNode lambda, InvokeDynamicInsnNode site) {
        Type erased = (Type) site.bsmArgs[0];
        Handle implementation = (Handle) site.bsmArgs[1];
        Type instantiated = (Type) site.bsmArgs[2];
        Type[] held = Type.getArgumentTypes(site.desc);
        List<Type> taken = taken(implementation);
        MethodNode method = new MethodNode(ACC_PUBLIC, site.name, erased.getDescriptor(), null, null);
        InsnList code = method.instructions;
        boolean constructs = implementation.getTag() == H_NEWINVOKESPECIAL;
        if (constructs) {
            code.add(new TypeInsnNode(NEW, implementation.getOwner()));
            code.add(new InsnNode(DUP));
        }
        for (int i = 0; i < held.length; i++) {
            code.add(new VarInsnNode(ALOAD, 0));
            code.add(new FieldInsnNode(GETFIELD, lambda.name, "held" + i, held[i].getDescriptor()));
        }
        int local = 1;
        Type[] parameters = erased.getArgumentTypes();
        for (int i = 0; i < parameters.length; i++) {
            code.add(new VarInsnNode(parameters[i].getOpcode(ILOAD), local));
            local += parameters[i].getSize();
            Conversions.convert(code, parameters[i], instantiated.getArgumentTypes()[i], taken.get(held.length + i));
        }
        code.add(call(implementation));
        Type given = constructs ? Type.getObjectType(implementation.getOwner()) : Type.getReturnType(implementation.getDesc());
        giveBack(code, given, erased.getReturnType(), instantiated.getReturnType());
        method.maxLocals = local;
        return method;
    }

    /** The types of what the implementation takes, its receiver among them. */
    private static List<Type> taken(Handle implementation) {
        List<Type> taken = new ArrayList<>();
        if (implementation.getTag() != H_INVOKESTATIC && implementation.getTag() != H_NEWINVOKESPECIAL) {
            taken.add(Type.getObjectType(implementation.getOwner()));
        }
        taken.addAll(Arrays.asList(Type.getArgumentTypes(implementation.getDesc())));
        return taken;
    }

    private static MethodInsnNode call(Handle implementation) {
        int opcode;
        switch (implementation.getTag()) {
            case H_NEWINVOKESPECIAL:
                opcode = INVOKESPECIAL;
                break;
            case H_INVOKESTATIC:
                opcode = INVOKESTATIC;
                break;
            default:
                opcode = implementation.isInterface() ? INVOKEINTERFACE : INVOKEVIRTUAL;
        }
        return new MethodInsnNode(
                opcode, implementation.getOwner(), implementation.getName(), implementation.getDesc(), implementation.isInterface());
    }

    private static void giveBack(InsnList code, Type given, Type erased, Type instantiated) {
        if (erased.getSort() == Type.VOID) {
            if (given.getSize() > 0) {
                code.add(new InsnNode(given.getSize() == 1 ? POP : POP2));
            }
        } else {
            boolean references = instantiated.getSort() >= Type.ARRAY && erased.getSort() >= Type.ARRAY;
            Conversions.convert(code, given, given, references ? instantiated : erased);
        }
        code.add(new InsnNode(erased.getOpcode(IRETURN)));
    }

    /** Further interfaces and bridges, which `altMetafactory` is asked for. */
    private static void extras(ClassNode lambda, InvokeDynamicInsnNode site) {
        if (!site.bsm.getName().equals("altMetafactory")) {
            return;
        }
        int flags = (Integer) site.bsmArgs[3];
        int at = 4;
        if ((flags & SERIALIZABLE) != 0) {
            lambda.interfaces.add("java/io/Serializable");
        }
        if ((flags & MARKERS) != 0) {
            int count = (Integer) site.bsmArgs[at++];
            for (int i = 0; i < count; i++) {
                lambda.interfaces.add(((Type) site.bsmArgs[at++]).getInternalName());
            }
        }
        if ((flags & BRIDGES) != 0) {
            int count = (Integer) site.bsmArgs[at++];
            for (int i = 0; i < count; i++) {
                bridge(lambda, site.name, (Type) site.bsmArgs[0], (Type) site.bsmArgs[at++]);
            }
        }
    }

    private static void bridge(ClassNode lambda, String name, Type erased, Type bridged) {
        if (World.method(lambda, name, bridged.getDescriptor()) != null) {
            return;
        }
        MethodNode method = new MethodNode(ACC_PUBLIC | ACC_SYNTHETIC, name, bridged.getDescriptor(), null, null);
        InsnList code = method.instructions;
        code.add(new VarInsnNode(ALOAD, 0));
        int local = 1;
        for (int i = 0; i < bridged.getArgumentTypes().length; i++) {
            Type from = bridged.getArgumentTypes()[i];
            Type to = erased.getArgumentTypes()[i];
            code.add(new VarInsnNode(from.getOpcode(ILOAD), local));
            local += from.getSize();
            if (!from.equals(to)) {
                code.add(new TypeInsnNode(CHECKCAST, to.getInternalName()));
            }
        }
        code.add(new MethodInsnNode(INVOKEVIRTUAL, lambda.name, name, erased.getDescriptor(), false));
        code.add(new InsnNode(bridged.getReturnType().getOpcode(IRETURN)));
        method.maxLocals = local;
        lambda.methods.add(method);
    }
}
