package desugar;

import java.util.ArrayList;
import java.util.LinkedHashMap;
import java.util.List;
import java.util.Map;
import java.util.Optional;
import org.objectweb.asm.Type;
import org.objectweb.asm.tree.AnnotationNode;
import org.objectweb.asm.tree.ClassNode;
import org.objectweb.asm.tree.FieldNode;
import org.objectweb.asm.tree.MethodNode;

/** The annotations of a class or a member, by internal name, with those that they are annotated with themselves. */
final class Annotations {
    private final Map<String, List<AnnotationNode>> byName = new LinkedHashMap<>();

    private Annotations() {}

    static Annotations of(ClassNode node) {
        return new Annotations().take(node.visibleAnnotations);
    }

    static Annotations of(MethodNode node) {
        return new Annotations().take(node.visibleAnnotations);
    }

    static Annotations of(FieldNode node) {
        return new Annotations().take(node.visibleAnnotations);
    }

    private Annotations take(List<AnnotationNode> given) {
        if (given != null) {
            given.forEach(node -> byName.computeIfAbsent(name(node), key -> new ArrayList<>()).add(node));
        }
        return this;
    }

    /** With the annotations of annotation types outside of the JDK, and theirs, as JUnit 5 reads them. */
    Annotations composed(ClassPath path) {
        List<String> open = new ArrayList<>(byName.keySet());
        while (!open.isEmpty()) {
            String name = open.remove(open.size() - 1);
            if (!path.isOfProject(name)) {
                continue;
            }
            Annotations above = of(path.find(name).orElseThrow());
            above.byName.forEach((key, nodes) -> {
                if (byName.putIfAbsent(key, nodes) == null) {
                    open.add(key);
                }
            });
        }
        return this;
    }

    boolean has(String name) {
        return byName.containsKey(name);
    }

    Optional<AnnotationNode> get(String name) {
        return Optional.ofNullable(byName.get(name)).map(nodes -> nodes.get(0));
    }

    /** All annotations of this name, also where they stand in a container of this name. */
    List<AnnotationNode> all(String name, String container) {
        List<AnnotationNode> found = new ArrayList<>(byName.getOrDefault(name, List.of()));
        get(container).ifPresent(node -> list(node, "value").forEach(inner -> found.add((AnnotationNode) inner)));
        return found;
    }

    /** The first whose name begins so. */
    Optional<String> beginning(String prefix) {
        return byName.keySet().stream().filter(name -> name.startsWith(prefix)).findFirst();
    }

    Iterable<String> names() {
        return byName.keySet();
    }

    static String name(AnnotationNode node) {
        return Type.getType(node.desc).getInternalName();
    }

    /** The value of an element, where it isn't left to its default. */
    static Optional<Object> value(AnnotationNode node, String element) {
        for (int i = 0; node.values != null && i < node.values.size(); i += 2) {
            if (node.values.get(i).equals(element)) {
                return Optional.of(node.values.get(i + 1));
            }
        }
        return Optional.empty();
    }

    static Optional<String> text(AnnotationNode node, String element) {
        return value(node, element).map(Object::toString);
    }

    /** The values of an element that is an array; none where it is left to its default. */
    static List<?> list(AnnotationNode node, String element) {
        Object found = value(node, element).orElse(List.of());
        if (found instanceof List<?> values) {
            return values;
        }
        List<Object> values = new ArrayList<>();
        for (int i = 0; found.getClass().isArray() && i < java.lang.reflect.Array.getLength(found); i++) {
            values.add(java.lang.reflect.Array.get(found, i));
        }
        return values.isEmpty() && !found.getClass().isArray() ? List.of(found) : values;
    }
}
