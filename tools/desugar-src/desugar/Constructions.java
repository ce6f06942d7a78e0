package desugar;

import static org.objectweb.asm.Opcodes.ACONST_NULL;
import static org.objectweb.asm.Opcodes.ALOAD;
import static org.objectweb.asm.Opcodes.ASTORE;
import static org.objectweb.asm.Opcodes.DUP;
import static org.objectweb.asm.Opcodes.INVOKESTATIC;
import static org.objectweb.asm.Opcodes.NEW;
import static org.objectweb.asm.Opcodes.POP2;
import static org.objectweb.asm.Opcodes.PUTFIELD;

import java.util.ArrayDeque;
import java.util.Deque;
import java.util.IdentityHashMap;
import java.util.Map;
import org.objectweb.asm.tree.AbstractInsnNode;
import org.objectweb.asm.tree.ClassNode;
import org.objectweb.asm.tree.FieldInsnNode;
import org.objectweb.asm.tree.InsnList;
import org.objectweb.asm.tree.InsnNode;
import org.objectweb.asm.tree.MethodInsnNode;
import org.objectweb.asm.tree.TypeInsnNode;
import org.objectweb.asm.tree.VarInsnNode;

/** Calls of constructors: of built-in classes those that there are, by helpers, or of a throwable with a cause. */
final class Constructions {
    static final String TEXT_OF_CAUSE = "(Ljava/lang/Throwable;)Ljava/lang/String;";
    private static final String VALUE_OF = "(Ljava/lang/Object;)Ljava/lang/String;";
    private static final String ASSERTION = "java/lang/AssertionError";

    private final Body body;
    private final World world;
    /** The `new` that each call of a constructor completes; none for `this(..)` and `super(..)`. */
    private final Map<AbstractInsnNode, TypeInsnNode> news = new IdentityHashMap<>();
    private final boolean givesCauses;

    Constructions(Body body) {
        this.body = body;
        this.world = body.world;
        this.givesCauses = pair();
    }

    /** Pairs each call of a constructor with its `new`, by their nesting; tells whether causes are given later. */
    private boolean pair() {
        boolean causes = false;
        Deque<TypeInsnNode> open = new ArrayDeque<>();
        for (AbstractInsnNode at : body.code) {
            if (at.getOpcode() == NEW) {
                open.push((TypeInsnNode) at);
            } else if (at instanceof MethodInsnNode) {
                MethodInsnNode call = (MethodInsnNode) at;
                causes |= call.name.equals("initCause");
                if (call.name.equals("<init>") && !open.isEmpty() && open.peek().desc.equals(call.owner)) {
                    news.put(call, open.pop());
                }
            }
        }
        return causes;
    }

    void rewrite(MethodInsnNode call) {
        TypeInsnNode made = news.get(call);
        if (made != null && !body.code.contains(made)) {
            return;
        }
        String moved = Types.REPLACED.get(call.owner);
        if (moved != null) {
            call.owner = moved;
            call.desc = Library.moved(call.desc);
            if (made != null) {
                made.desc = moved;
            }
        }
        if (world.isThrowable(call.owner) && world.builtins.has(call.owner)) {
            ofThrowable(call, made);
        } else if (world.builtins.has(call.owner)) {
            ofBuiltin(call, made);
        } else if (World.method(world.get(call.owner), "<init>", call.desc) == null) {
            body.cut(call, "new " + Types.dotted(call.owner));
        } else {
            mark(call);
        }
    }

    /** A constructor whose descriptor became that of another one takes nulls as marks. */
    private void mark(MethodInsnNode call) {
        ClassNode owner = world.get(call.owner);
        for (int mark = body.types.marks(owner, call.desc); mark > 0; mark--) {
            body.code.insertBefore(call, new InsnNode(ACONST_NULL));
        }
    }

    private void ofBuiltin(MethodInsnNode call, TypeInsnNode made) {
        if (world.builtins.hasMethod(call.owner, "<init>", call.desc)) {
            return;
        }
        String helpers = Library.helpersOf(call.owner);
        String descriptor = call.desc.substring(0, call.desc.length() - 1) + "L" + call.owner + ";";
        AbstractInsnNode copy = made == null ? null : Body.next(made);
        if (copy == null || copy.getOpcode() != DUP || World.method(world.get(helpers), "make", descriptor) == null) {
            body.cut(call, "new " + Types.dotted(call.owner));
            return;
        }
        body.code.remove(copy);
        body.code.remove(made);
        Body.redirect(call, helpers, "make", descriptor);
    }

    private void ofThrowable(MethodInsnNode call, TypeInsnNode made) {
        boolean served = world.builtins.hasMethod(call.owner, "<init>", call.desc);
        if (made == null) {
            if (!served || call.owner.equals(ASSERTION)) {
                aboveThrowable(call, served);
            }
            return;
        }
        if (call.owner.equals(ASSERTION) && call.desc.equals("(Ljava/lang/Object;)V") || !served || givesCauses) {
            String thrown = Throwables.nameOf(call.owner);
            if (World.method(world.get(thrown), "<init>", call.desc) == null) {
                if (!served) {
                    body.cut(call, "new " + Types.dotted(call.owner));
                }
                return;
            }
            made.desc = thrown;
            call.owner = thrown;
        }
    }

    /** `super(message, cause)` where the class above is built in: the message goes up, the cause into the class's own field. */
    private void aboveThrowable(MethodInsnNode call, boolean served) {
        String texts = Library.helpersOf(Builtins.THROWABLE);
        InsnList code = new InsnList();
        int cause = -1;
        switch (call.desc) {
            case "(Ljava/lang/String;Ljava/lang/Throwable;ZZ)V":
                code.add(new InsnNode(POP2));
                cause = store(code);
                break;
            case "(Ljava/lang/String;Ljava/lang/Throwable;)V":
                cause = store(code);
                break;
            case "(Ljava/lang/Throwable;)V":
                code.add(new InsnNode(DUP));
                cause = store(code);
                code.add(new MethodInsnNode(INVOKESTATIC, texts, "text", TEXT_OF_CAUSE, false));
                break;
            case "(Ljava/lang/Object;)V":
                code.add(new InsnNode(DUP));
                code.add(new MethodInsnNode(INVOKESTATIC, texts, "causeIn", "(Ljava/lang/Object;)Ljava/lang/Throwable;", false));
                cause = store(code);
                code.add(new MethodInsnNode(INVOKESTATIC, Library.helpersOf(Builtins.STRING), "valueOf", VALUE_OF, false));
                break;
            default:
                if (!served) {
                    body.cut(call, "super constructor " + Types.dotted(call.owner) + call.desc);
                }
                return;
        }
        body.code.insertBefore(call, code);
        call.desc = call.owner.equals(ASSERTION) ? "(Ljava/lang/Object;)V" : "(Ljava/lang/String;)V";
        InsnList after = new InsnList();
        after.add(new VarInsnNode(ALOAD, 0));
        after.add(new VarInsnNode(ALOAD, cause));
        after.add(new FieldInsnNode(PUTFIELD, body.owner.name, Members.CAUSE, "Ljava/lang/Throwable;"));
        body.code.insert(call, after);
    }

    private int store(InsnList code) {
        int local = body.newLocal(1);
        code.add(new VarInsnNode(ASTORE, local));
        return local;
    }
}
