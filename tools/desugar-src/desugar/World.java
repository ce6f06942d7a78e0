package desugar;

import java.util.ArrayDeque;
import java.util.ArrayList;
import java.util.Deque;
import java.util.HashMap;
import java.util.LinkedHashSet;
import java.util.List;
import java.util.Map;
import java.util.Optional;
import java.util.Set;
import org.objectweb.asm.Opcodes;
import org.objectweb.asm.Type;
import org.objectweb.asm.tree.ClassNode;
import org.objectweb.asm.tree.FieldNode;
import org.objectweb.asm.tree.MethodNode;

/**
 * The classes that a suite may be made of, before rewriting: helpers and replacements of the library first, then the project's and its
 * jars', then those of the JDK that are served. Built-in classes have no node, and neither have classes that aren't served.
 */
final class World {
    /** Where a class comes from. */
    enum Origin { LIBRARY, PROJECT, JDK }

    /** Where a member was found: in a class with a node, in a built-in one, or nowhere. */
    record Found(Place place, String owner, int access) {}

    enum Place { CLASS, BUILTIN, NOWHERE }

    final Builtins builtins = new Builtins();
    private final ClassPath path;
    private final Library library;
    private final ServedJdk served = new ServedJdk();
    private final Map<String, Optional<ClassNode>> classes = new HashMap<>();
    private final Map<String, Origin> origins = new HashMap<>();

    World(ClassPath path, Library library) {
        this.path = path;
        this.library = library;
    }

    /** Takes a generated class. */
    void define(ClassNode node, Origin origin) {
        classes.put(node.name, Optional.of(node));
        origins.put(node.name, origin);
    }

    /** The class, or null where it is built in or isn't served. */
    ClassNode get(String name) {
        Optional<ClassNode> known = classes.get(name);
        if (known == null) {
            known = builtins.has(name) || name.startsWith("[") ? Optional.empty() : load(name);
            classes.put(name, known);
        }
        return known.orElse(null);
    }

    private Optional<ClassNode> load(String name) {
        if (Throwables.isOne(name)) {
            origins.put(name, Origin.LIBRARY);
            return Throwables.make(name, builtins);
        }
        if (name.endsWith(Reflections.SUFFIX)) {
            String owner = name.substring(0, name.length() - Reflections.SUFFIX.length());
            origins.put(name, originOf(owner));
            return Optional.ofNullable(get(owner)).map(node -> new Reflections(node).make());
        }
        Optional<ClassNode> found = library.find(name);
        origins.put(name, Origin.LIBRARY);
        if (found.isEmpty() && path.isOfProject(name)) {
            found = path.find(name);
            origins.put(name, Origin.PROJECT);
        } else if (found.isEmpty() && served.serves(name)) {
            found = path.ofJdk(name);
            origins.put(name, Origin.JDK);
        }
        return found.filter(node -> node.superName == null || exists(node.superName));
    }

    /** Whether a method of a class of the JDK is left out. */
    boolean leavesOut(String owner, String method) {
        return originOf(owner) == Origin.JDK && served.leavesOut(owner, method);
    }

    /** The class of which a read of a static field of the JDK makes an object, where the field is a cache and has the type; else null. */
    String madeAnew(String owner, String field, String descriptor) {
        String made = served.madeAnew(owner, field);
        boolean fits = made != null && exists(owner) && originOf(owner) == Origin.JDK
                && isSubtype(made, Type.getType(descriptor).getInternalName()) && method(get(made), "<init>", "()V") != null;
        return fits ? made : null;
    }

    /** The class as the project, a jar or the JDK has it, also where it is built in here. */
    Optional<ClassNode> asItStands(String name) {
        return path.find(name);
    }

    /** Whether it is a class of the project's own, and not of a jar. */
    boolean isOwn(String name) {
        return path.isOwn(name);
    }

    Origin originOf(String name) {
        return origins.get(name);
    }

    /** Whether the class is built in or has a node. */
    boolean exists(String name) {
        return builtins.has(name) || get(name) != null;
    }

    boolean isInterface(String name) {
        ClassNode node = get(name);
        return node != null && (node.access & Opcodes.ACC_INTERFACE) != 0;
    }

    String superOf(String name) {
        if (builtins.has(name)) {
            return builtins.superOf(name);
        }
        ClassNode node = get(name);
        return node == null ? null : node.superName;
    }

    /** The class and those above it, up to Object. */
    List<String> chain(String name) {
        List<String> chain = new ArrayList<>();
        for (String at = name; at != null; at = superOf(at)) {
            chain.add(at);
        }
        return chain;
    }

    /** How many classes stand above this one. */
    int depth(String name) {
        return chain(name).size();
    }

    boolean isThrowable(String name) {
        return chain(name).contains(Builtins.THROWABLE);
    }

    /** The class, all classes above it and all interfaces of these that are served. */
    Set<String> ancestors(String name) {
        Set<String> found = new LinkedHashSet<>();
        Deque<String> open = new ArrayDeque<>(List.of(name));
        while (!open.isEmpty()) {
            String at = open.poll();
            if (!exists(at) || !found.add(at)) {
                continue;
            }
            if (superOf(at) != null) {
                open.add(superOf(at));
            }
            if (get(at) != null) {
                open.addAll(get(at).interfaces);
            }
        }
        return found;
    }

    boolean isSubtype(String name, String above) {
        return above.equals(Builtins.OBJECT) || ancestors(name).contains(above);
    }

    static MethodNode method(ClassNode node, String name, String descriptor) {
        if (node != null) {
            for (MethodNode each : node.methods) {
                if (each.name.equals(name) && each.desc.equals(descriptor)) {
                    return each;
                }
            }
        }
        return null;
    }

    static FieldNode field(ClassNode node, String name, String descriptor) {
        if (node != null) {
            for (FieldNode each : node.fields) {
                if (each.name.equals(name) && each.desc.equals(descriptor)) {
                    return each;
                }
            }
        }
        return null;
    }

    /** The class that declares the method of a reference: classes first, then interfaces (JVMS 5.4.3.3). */
    Found resolveMethod(String owner, String name, String descriptor) {
        String builtin = null;
        for (String at : chain(owner)) {
            if (builtins.has(at)) {
                builtin = at;
                break;
            }
            MethodNode found = method(get(at), name, descriptor);
            if (found != null) {
                return new Found(Place.CLASS, at, found.access);
            }
        }
        if (builtin != null && builtins.hasMethod(builtin, name, descriptor)) {
            return new Found(Place.BUILTIN, builtin, Opcodes.ACC_PUBLIC);
        }
        for (String at : ancestors(owner)) {
            MethodNode found = isInterface(at) ? method(get(at), name, descriptor) : null;
            if (found != null) {
                return new Found(Place.CLASS, at, found.access);
            }
        }
        return builtin != null ? new Found(Place.BUILTIN, builtin, 0) : new Found(Place.NOWHERE, owner, 0);
    }

    /** The class that declares the field of a reference, null where there is none with a node (JVMS 5.4.3.2). */
    String resolveField(String owner, String name, String descriptor) {
        for (String at : ancestors(owner)) {
            if (field(get(at), name, descriptor) != null) {
                return at;
            }
        }
        return null;
    }
}
