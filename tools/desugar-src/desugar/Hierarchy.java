package desugar;

import java.util.HashMap;
import java.util.IdentityHashMap;
import java.util.LinkedHashMap;
import java.util.LinkedHashSet;
import java.util.List;
import java.util.Map;
import java.util.Set;
import org.objectweb.asm.Opcodes;
import org.objectweb.asm.Type;
import org.objectweb.asm.tree.ClassNode;
import org.objectweb.asm.tree.MethodNode;

/** Classes after rewriting: each is rewritten when it is asked for first. */
final class Hierarchy {
    final World world;
    private final ClassRewriter rewriter;
    private final Map<String, ClassRewriter.Rewritten> rewritten = new HashMap<>();
    private final Map<String, Set<String>> ancestors = new HashMap<>();
    private final Map<String, Map<String, String>> selections = new HashMap<>();
    private final Map<String, Map<String, MethodNode>> methods = new HashMap<>();
    private final Map<MethodNode, Uses> uses = new IdentityHashMap<>();

    Hierarchy(World world) {
        this.world = world;
        this.rewriter = new ClassRewriter(world);
    }

    /** The class after rewriting with its cuts; null for a built-in one and where there is none. */
    ClassRewriter.Rewritten get(String name) {
        ClassNode original = world.get(name);
        if (original == null) {
            return null;
        }
        ClassRewriter.Rewritten known = rewritten.get(name);
        if (known == null) {
            known = rewriter.rewrite(original);
            rewritten.put(name, known);
        }
        return known;
    }

    ClassNode node(String name) {
        ClassRewriter.Rewritten found = get(name);
        return found == null ? null : found.node();
    }

    String tokenOf(String name) {
        return new Types(world).token(Type.getObjectType(name));
    }

    boolean isBuiltin(String name) {
        return world.builtins.has(name);
    }

    private String superOf(String name) {
        return isBuiltin(name) ? world.builtins.superOf(name) : node(name).superName;
    }

    /** The class, the classes above it and their interfaces: the class first, then up, interfaces last. */
    Set<String> ancestors(String name) {
        Set<String> known = ancestors.get(name);
        if (known == null) {
            known = new LinkedHashSet<>();
            for (String at = name; at != null; at = superOf(at)) {
                known.add(at);
            }
            for (String at : List.copyOf(known)) {
                if (!isBuiltin(at)) {
                    for (String each : node(at).interfaces) {
                        known.addAll(ancestors(each));
                    }
                }
            }
            ancestors.put(name, known);
        }
        return known;
    }

    boolean isSubtype(String name, String above) {
        return above.equals(Builtins.OBJECT) || ancestors(name).contains(above);
    }

    /** The class or interface that declares the member of a reference; null where it is built in or there is none. */
    String declarer(String owner, String key) {
        for (String at : ancestors(owner)) {
            if (!isBuiltin(at) && method(at, key) != null) {
                return at;
            }
        }
        return null;
    }

    MethodNode method(String owner, String key) {
        Map<String, MethodNode> known = methods.get(owner);
        if (known == null) {
            known = new HashMap<>();
            for (MethodNode each : node(owner).methods) {
                known.putIfAbsent(each.name + each.desc, each);
            }
            methods.put(owner, known);
        }
        return known.get(key);
    }

    /** What the code of a method after rewriting uses. */
    Uses uses(MethodNode method) {
        Uses known = uses.get(method);
        if (known == null) {
            known = new Uses(this, method);
            uses.put(method, known);
        }
        return known;
    }

    /** The methods that a call on an object of the class may select: their keys, with the class or interface that has the code. */
    Map<String, String> selections(String name) {
        Map<String, String> known = selections.get(name);
        if (known == null) {
            known = new LinkedHashMap<>();
            for (String at : ancestors(name)) {
                if (isBuiltin(at)) {
                    continue;
                }
                for (MethodNode each : node(at).methods) {
                    if ((each.access & (Opcodes.ACC_STATIC | Opcodes.ACC_ABSTRACT)) == 0 && each.name.charAt(0) != '<') {
                        known.putIfAbsent(each.name + each.desc, at);
                    }
                }
            }
            selections.put(name, known);
        }
        return known;
    }
}
