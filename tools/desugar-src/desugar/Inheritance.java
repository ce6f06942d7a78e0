package desugar;

import java.util.ArrayList;
import java.util.Comparator;
import java.util.HashMap;
import java.util.HashSet;
import java.util.List;
import java.util.Map;
import java.util.Optional;
import java.util.Set;
import java.util.stream.Stream;
import org.objectweb.asm.Opcodes;
import org.objectweb.asm.Type;
import org.objectweb.asm.tree.ClassNode;
import org.objectweb.asm.tree.MethodNode;

/** Superclasses, interfaces and methods of the classes that tests are looked for in. */
final class Inheritance {
    /** A method with the class that declares it. */
    record Member(ClassNode owner, MethodNode method) {
        MethodRef ref() {
            return new MethodRef(owner.name, method.name, method.desc);
        }

        boolean is(int access) {
            return (method.access & access) != 0;
        }

        boolean ofInterface() {
            return isInterface(owner);
        }

        /** The source line where its code begins, 0 where the class file doesn't tell. */
        int line() {
            for (var at = method.instructions.getFirst(); at != null; at = at.getNext()) {
                if (at instanceof org.objectweb.asm.tree.LineNumberNode line) {
                    return line.line;
                }
            }
            return 0;
        }

        private String arguments() {
            return method.name + method.desc.substring(0, method.desc.indexOf(')'));
        }
    }

    private final ClassPath path;
    private final Map<String, List<Member>> below = new HashMap<>();
    private final Map<String, List<Member>> above = new HashMap<>();

    Inheritance(ClassPath path) {
        this.path = path;
    }

    /** The class and its superclasses, without those of the JDK, the class itself first. */
    List<ClassNode> chain(ClassNode node) {
        List<ClassNode> chain = new ArrayList<>();
        Optional<ClassNode> at = Optional.of(node);
        while (at.isPresent()) {
            chain.add(at.get());
            at = Optional.ofNullable(at.get().superName).filter(path::isOfProject).flatMap(path::find);
        }
        return chain;
    }

    boolean isBelow(ClassNode node, String name) {
        return chain(node).stream().anyMatch(above -> above.name.equals(name) || name.equals(above.superName));
    }

    /** Whether a class or interface outside of the JDK is below an interface. */
    boolean implementsInterface(Type type, String name) {
        if (type.getSort() != Type.OBJECT || !path.isOfProject(type.getInternalName())) {
            return false;
        }
        return type.getInternalName().equals(name)
                || chain(path.find(type.getInternalName()).orElseThrow()).stream()
                        .flatMap(owner -> owner.interfaces.stream())
                        .anyMatch(above -> implementsInterface(Type.getObjectType(above), name));
    }

    Optional<Member> method(ClassNode node, String name, String descriptor) {
        return chain(node).stream()
                .flatMap(owner -> owner.methods.stream()
                        .filter(method -> method.name.equals(name) && method.desc.equals(descriptor))
                        .map(method -> new Member(owner, method)))
                .findFirst();
    }

    /** The methods that a class declares and javac didn't make, in JUnit's order where it has one: by the hash code of their names. */
    static List<Member> declared(ClassNode owner) {
        return owner.methods.stream()
                .filter(method -> !method.name.startsWith("<") && (method.access & Opcodes.ACC_SYNTHETIC) == 0)
                .map(method -> new Member(owner, method))
                .sorted(Comparator.<Member>comparingInt(member -> member.method.name.hashCode())
                        .thenComparing(member -> member.method.name)
                        .thenComparing(member -> member.method.desc))
                .toList();
    }

    /** The methods of a class and its superclasses that none below hides, those of the class itself first. */
    List<Member> fromBelow(ClassNode node) {
        return below.computeIfAbsent(node.name, name -> {
            List<Member> found = new ArrayList<>();
            Set<String> seen = new HashSet<>();
            chain(node).forEach(owner -> addUnhidden(declared(owner), seen, found));
            return found;
        });
    }

    /** The methods of a class, its superclasses and their interfaces that none below hides, those furthest above first. */
    List<Member> fromAbove(ClassNode node) {
        List<Member> known = above.get(node.name);
        if (known != null) {
            return known;
        }
        Set<String> seen = new HashSet<>();
        List<Member> local = new ArrayList<>();
        addUnhidden(declared(node), seen, local);
        List<Member> found = new ArrayList<>();
        Stream.concat(Stream.ofNullable(node.superName), node.interfaces.stream())
                .filter(path::isOfProject)
                .flatMap(name -> path.find(name).stream())
                .forEach(parent -> addUnhidden(fromAbove(parent), seen, found));
        found.addAll(local);
        above.put(node.name, found);
        return found;
    }

    /** Adds the members that none hides of those seen before; a private one is hidden by none, and hides none. */
    private static void addUnhidden(List<Member> given, Set<String> seen, List<Member> found) {
        Set<String> own = new HashSet<>();
        for (Member member : given) {
            if (member.is(Opcodes.ACC_PRIVATE)) {
                found.add(member);
            } else if (!seen.contains(member.arguments())) {
                own.add(member.arguments());
                found.add(member);
            }
        }
        seen.addAll(own);
    }

    static boolean isInterface(ClassNode node) {
        return (node.access & Opcodes.ACC_INTERFACE) != 0;
    }

    static boolean isAbstract(ClassNode node) {
        return (node.access & Opcodes.ACC_ABSTRACT) != 0;
    }

    static boolean isPublic(ClassNode node) {
        return (node.access & Opcodes.ACC_PUBLIC) != 0;
    }

    /** The class around a member class, and whether the member class is static; empty for a class that is no member. */
    static Optional<Outer> outer(ClassNode node) {
        return node.innerClasses.stream()
                .filter(inner -> inner.name.equals(node.name) && inner.outerName != null)
                .map(inner -> new Outer(inner.outerName, (inner.access & Opcodes.ACC_STATIC) != 0, inner.access))
                .findFirst();
    }

    /** Whether the class is local or anonymous. */
    static boolean isLocal(ClassNode node) {
        return node.outerClass != null || node.innerClasses.stream().anyMatch(inner -> inner.name.equals(node.name) && inner.outerName == null);
    }

    record Outer(String name, boolean isStatic, int access) {}
}
