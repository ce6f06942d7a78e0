package desugar;

import static org.objectweb.asm.Opcodes.CHECKCAST;
import static org.objectweb.asm.Opcodes.INVOKEINTERFACE;
import static org.objectweb.asm.Opcodes.INVOKESPECIAL;
import static org.objectweb.asm.Opcodes.INVOKESTATIC;
import static org.objectweb.asm.Opcodes.INVOKEVIRTUAL;

import java.util.List;
import java.util.Set;
import org.objectweb.asm.tree.ClassNode;
import org.objectweb.asm.tree.LdcInsnNode;
import org.objectweb.asm.tree.MethodInsnNode;
import org.objectweb.asm.tree.MethodNode;
import org.objectweb.asm.tree.TypeInsnNode;

/** Calls of methods: of classes with a node as they resolve, of built-in ones as they are or by a static helper. */
final class Calls {
    private static final String OBJECTS = Library.HELPERS + "ObjectHelpers";
    private static final String TO_STRING = "()Ljava/lang/String;";
    /** What a project asks of a throwable in vain; JUnit and others may ask, and get nothing. */
    private static final Set<String> NOT_KEPT = Set.of("getStackTrace", "getSuppressed");
    private static final Set<String> DISPATCHED = Set.of("java/lang/CharSequence", "java/lang/Comparable", Types.TYPE);

    private static final String CALLER = "caller ";
    private static final Set<String> MEMBERS = Set.of("java/lang/reflect/Field", "java/lang/reflect/Method", "java/lang/reflect/Constructor");

    private final Body body;
    private final World world;

    Calls(Body body) {
        this.body = body;
        this.world = body.world;
    }

    void rewrite(MethodInsnNode call) {
        if (call.name.equals(Members.INITIALISE)) {
            return;
        }
        if (call.owner.startsWith("[")) {
            ofArray(call);
        } else if (call.owner.equals(Types.CLASS)) {
            if (!byMended(call)) {
                ofBuiltin(call, Types.CLASS);
            }
        } else if (Types.REPLACED.containsKey(call.owner)) {
            ofReplaced(call);
        } else if (!ofStringInterface(call) && !byMended(call)) {
            tellCaller(call);
            resolved(call);
        }
    }

    /** A use of a member by reflection is told which class asks, where the library has such a method: `caller NAME`, or `caller NAME HOST`. */
    private void tellCaller(MethodInsnNode call) {
        String told = call.desc.replace(")", "Ljava/lang/String;)");
        boolean project = world.originOf(body.owner.name) == World.Origin.PROJECT;
        if (project && MEMBERS.contains(call.owner) && World.method(world.get(call.owner), call.name, told) != null) {
            String host = hostOf(body.owner);
            String caller = CALLER + body.owner.name + (host == null ? "" : " " + host);
            body.code.insertBefore(call, new LdcInsnNode(Types.dotted(caller)));
            call.desc = told;
        }
    }

    /** The host of the nest that a class is in, whose classes may use what is private of one another (JVMS 4.7.28); null for none. */
    private static String hostOf(ClassNode node) {
        return node.nestHostClass != null ? node.nestHostClass : node.nestMembers != null ? node.name : null;
    }

    private void ofArray(MethodInsnNode call) {
        if (call.name.equals("clone")) {
            Body.redirect(call, Library.HELPERS + "ArrayHelpers", "copyOf", "(Ljava/lang/Object;)Ljava/lang/Object;");
        } else {
            call.owner = Builtins.OBJECT;
            resolved(call);
        }
    }

    /** A built-in class that is moved: its methods take and return the moved class. */
    private void ofReplaced(MethodInsnNode call) {
        String builtin = call.owner;
        String moved = Types.REPLACED.get(builtin);
        String descriptor = Library.moved(call.desc).replace(")Ljava/lang/AbstractStringBuilder;", ")L" + moved + ";");
        World.Found found = world.resolveMethod(moved, call.name, descriptor);
        call.owner = moved;
        call.desc = descriptor;
        if (found.place() == World.Place.BUILTIN) {
            ofBuiltin(call, found.owner());
        } else if (found.place() == World.Place.NOWHERE) {
            body.cut(call, Types.dotted(builtin) + "." + call.name);
        }
    }

    /** Calls through Comparable and CharSequence may meet a String; `toString` through any interface as well. */
    private boolean ofStringInterface(MethodInsnNode call) {
        if (call.getOpcode() != INVOKEINTERFACE || body.isHelper()) {
            return false;
        }
        String helpers = Library.helpersOf(call.owner);
        String descriptor = withReceiver(call.owner, call.desc);
        if (DISPATCHED.contains(call.owner) && World.method(world.get(helpers), call.name, descriptor) != null) {
            Body.redirect(call, helpers, call.name, descriptor);
            return true;
        }
        if (call.name.equals("toString") && call.desc.equals(TO_STRING)) {
            Body.redirect(call, OBJECTS, "toString", "(Ljava/lang/Object;)Ljava/lang/String;");
            return true;
        }
        return false;
    }

    /**
     * A method of a class that isn't served, for which the library has a static one in its place; in code of the JDK also one of Class,
     * as it asks for its own fields.
     */
    private boolean byMended(MethodInsnNode call) {
        boolean ofJdk = world.originOf(body.owner.name) == World.Origin.JDK;
        if (call.owner.equals(Types.CLASS) ? !ofJdk : world.exists(call.owner)) {
            return false;
        }
        ClassNode mended = world.get(Library.mendedOf(call.owner));
        String descriptor = call.getOpcode() == INVOKESTATIC ? call.desc : withReceiver(call.owner, call.desc);
        String wanted = body.types.descriptor(descriptor);
        for (MethodNode each : mended == null ? List.<MethodNode>of() : mended.methods) {
            if (each.name.equals(call.name) && body.types.descriptor(each.desc).equals(wanted)) {
                Body.redirect(call, mended.name, each.name, each.desc);
                return true;
            }
        }
        return false;
    }

    private void resolved(MethodInsnNode call) {
        World.Found found = world.resolveMethod(call.owner, call.name, call.desc);
        switch (found.place()) {
            case CLASS:
                ofClass(call, found);
                break;
            case BUILTIN:
                ofBuiltin(call, found.owner());
                break;
            default:
                boolean ofObject = world.isInterface(call.owner) && world.builtins.hasMethod(Builtins.OBJECT, call.name, call.desc);
                if (!ofObject) {
                    body.cut(call, Types.dotted(call.owner) + "." + call.name);
                }
        }
    }

    private void ofClass(MethodInsnNode call, World.Found found) {
        if (call.getOpcode() == INVOKESTATIC) {
            call.owner = found.owner();
            call.itf = world.isInterface(found.owner());
        } else if (Types.isPrivateInstance(found.access(), call.name)) {
            call.name = body.types.privateName(found.owner(), call.name);
            if (call.getOpcode() == INVOKESPECIAL && !call.owner.equals(body.owner.name)) {
                call.setOpcode(world.isInterface(call.owner) ? INVOKEINTERFACE : INVOKEVIRTUAL);
            } else if (call.getOpcode() == INVOKESPECIAL && world.isInterface(call.owner)) {
                call.setOpcode(INVOKEINTERFACE);
            }
        }
    }

    private void ofBuiltin(MethodInsnNode call, String builtin) {
        boolean asksTrace = NOT_KEPT.contains(call.name) || call.name.equals("printStackTrace") && !call.desc.equals("()V");
        if (asksTrace && world.builtins.isThrowable(builtin) && world.isOwn(body.owner.name)) {
            body.cut(call, "java.lang.Throwable." + call.name);
            return;
        }
        if (body.isHelper() && world.builtins.has(builtin) && world.builtins.hasMethod(builtin, call.name, call.desc)) {
            return;
        }
        if (call.getOpcode() == INVOKESPECIAL && superCall(call)) {
            return;
        }
        if (byHelper(call, builtin)) {
            return;
        }
        if (!world.builtins.has(builtin) || !world.builtins.hasMethod(builtin, call.name, call.desc)) {
            body.cut(call, Types.dotted(builtin) + "." + call.name);
        }
    }

    /** `super.clone()`, `super.toString()` and `super.getCause()` where the class above is a built-in one. */
    private boolean superCall(MethodInsnNode call) {
        if (call.name.equals("clone") && call.desc.equals("()Ljava/lang/Object;")) {
            body.code.insertBefore(call, new TypeInsnNode(CHECKCAST, Library.HAS_CLONE));
            call.setOpcode(INVOKEINTERFACE);
            call.owner = Library.HAS_CLONE;
            call.name = "$clone";
            call.itf = true;
            return true;
        }
        if (call.name.equals("toString") && call.desc.equals(TO_STRING)) {
            boolean throwable = world.isThrowable(body.owner.name);
            Body.redirect(call, throwable ? Library.helpersOf(Builtins.THROWABLE) : OBJECTS, "superToString",
                    throwable ? "(Ljava/lang/Throwable;)Ljava/lang/String;" : "(Ljava/lang/Object;)Ljava/lang/String;");
            return true;
        }
        if (call.name.equals("getCause") && world.isThrowable(body.owner.name)) {
            Body.redirect(call, Library.helpersOf(Builtins.THROWABLE), "superGetCause", "(Ljava/lang/Throwable;)Ljava/lang/Throwable;");
            return true;
        }
        return false;
    }

    private boolean byHelper(MethodInsnNode call, String builtin) {
        for (String at : world.builtins.has(builtin) ? world.chain(builtin) : List.of(builtin, Builtins.OBJECT)) {
            String helpers = Library.helpersOf(at);
            String descriptor = call.getOpcode() == INVOKESTATIC ? call.desc : withReceiver(at, call.desc);
            if (World.method(world.get(helpers), call.name, descriptor) != null) {
                Body.redirect(call, helpers, call.name, descriptor);
                return true;
            }
        }
        return false;
    }

    static String withReceiver(String owner, String descriptor) {
        return "(L" + owner + ";" + descriptor.substring(1);
    }
}
