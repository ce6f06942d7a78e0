package desugar;

import static org.objectweb.asm.Opcodes.CHECKCAST;
import static org.objectweb.asm.Opcodes.DUP;
import static org.objectweb.asm.Opcodes.ICONST_0;
import static org.objectweb.asm.Opcodes.INSTANCEOF;
import static org.objectweb.asm.Opcodes.NEW;
import static org.objectweb.asm.Opcodes.POP;

import java.util.Set;
import org.objectweb.asm.tree.InsnNode;
import org.objectweb.asm.tree.TypeInsnNode;

/** Casts, `instanceof` and `new`: of String's interfaces by helpers, of classes that aren't served not at all. */
final class TypeUses {
    private static final String OBJECTS = Library.HELPERS + "ObjectHelpers";
    private static final Set<String> ASKED =
            Set.of("java/lang/Comparable", "java/lang/CharSequence", "java/io/Serializable", "java/lang/Cloneable", Types.TYPE);

    private final Body body;

    TypeUses(Body body) {
        this.body = body;
    }

    void rewrite(TypeInsnNode use) {
        String base = Types.base(use.desc);
        boolean array = use.desc.startsWith("[");
        boolean asks = use.getOpcode() == CHECKCAST || use.getOpcode() == INSTANCEOF;
        if (base == null) {
            return;
        }
        if (!array && asks && ASKED.contains(base)) {
            ofString(use, base.substring(base.lastIndexOf('/') + 1));
        } else if (use.getOpcode() == INSTANCEOF && use.desc.equals("[Ljava/lang/Object;") && !body.isHelper()) {
            askHelper(use, "isObjectArray");
        } else if (!array && use.getOpcode() == INSTANCEOF && base.equals(Types.CLASS)) {
            askHelper(use, "isClass");
        } else if (body.types.isGone(base)) {
            ofGone(use, base, array);
        }
    }

    private void ofString(TypeInsnNode use, String simple) {
        boolean cast = use.getOpcode() == CHECKCAST;
        if (body.isHelper()) {
            if (cast) {
                body.code.remove(use);
            }
        } else if (cast) {
            body.code.insertBefore(use, new InsnNode(DUP));
            body.callBefore(use, OBJECTS, "as" + simple, "(Ljava/lang/Object;)V");
            body.code.remove(use);
        } else {
            askHelper(use, "is" + simple);
        }
    }

    private void askHelper(TypeInsnNode use, String name) {
        body.callBefore(use, OBJECTS, name, "(Ljava/lang/Object;)Z");
        body.code.remove(use);
    }

    private void ofGone(TypeInsnNode use, String base, boolean array) {
        switch (use.getOpcode()) {
            case NEW:
                body.cut(use, Types.dotted(base));
                break;
            case INSTANCEOF:
                if (!array) {
                    body.code.insertBefore(use, new InsnNode(POP));
                    body.code.set(use, new InsnNode(ICONST_0));
                }
                break;
            case CHECKCAST:
                if (!array) {
                    body.code.remove(use);
                }
                break;
            default:
                break;
        }
    }
}
