package desugar;

import java.nio.file.Files;
import java.nio.file.Path;
import java.util.HashSet;
import java.util.Map;
import java.util.Optional;
import java.util.Set;
import org.objectweb.asm.commons.ClassRemapper;
import org.objectweb.asm.commons.SimpleRemapper;
import org.objectweb.asm.tree.ClassNode;

/** The helper classes that go into a suite, and classes that stand in place of the JDK's. */
final class Library {
    /** The package of helpers. */
    static final String HELPERS = "jamuvelor/lib/";
    /** The package of helpers that are left as they are: they build strings by the built-in builder. */
    static final String RAW = HELPERS + "raw/";
    static final String BUILDER = HELPERS + "StringBuilder";
    static final String BUFFER = "java/lang/StringBuffer";
    static final String UNSERVED = HELPERS + "Unserved";
    static final String TABLES = HELPERS + "Tables";
    static final String SOFT_FLOAT = HELPERS + "SoftFloat";
    /** What an element of an array of float is, and one of double. */
    static final String FLOAT = HELPERS + "Float32";
    static final String DOUBLE = HELPERS + "Float64";
    static final String INSTANCE = HELPERS + "Instance";
    static final String HAS_CAUSE = HELPERS + "HasCause";
    static final String HAS_CLONE = HELPERS + "HasClone";
    static final String BARE = HELPERS + "Bare";

    private final Path folder;

    Library(Path folder) {
        this.folder = folder;
    }

    /** A helper, or a class in place of one of the JDK's. */
    Optional<ClassNode> find(String name) {
        if (name.equals(BUFFER)) {
            return find(BUILDER).map(Library::asBuffer);
        }
        Path file = folder.resolve(name + ".class");
        return Files.exists(file) ? Optional.of(ClassPath.parse(file)) : Optional.empty();
    }

    /** StringBuffer is StringBuilder under another name, as no threads run. */
    private static ClassNode asBuffer(ClassNode builder) {
        ClassNode buffer = new ClassNode();
        builder.accept(new ClassRemapper(buffer, new SimpleRemapper(BUILDER, BUFFER)));
        Set<String> seen = new HashSet<>();
        buffer.methods.removeIf(method -> !seen.add(method.name + method.desc));
        return buffer;
    }

    /** A descriptor with the moved classes in place of the built-in ones. */
    static String moved(String descriptor) {
        String made = descriptor;
        for (Map.Entry<String, String> each : Types.REPLACED.entrySet()) {
            made = made.replace("L" + each.getKey() + ";", "L" + each.getValue() + ";");
        }
        return made;
    }

    /** The class of helpers for members that a built-in class, or an interface of String, doesn't have. */
    static String helpersOf(String name) {
        return HELPERS + name.substring(name.lastIndexOf('/') + 1) + "Helpers";
    }

    /** The class with methods that stand in place of a JDK class's own. */
    static String mendedOf(String name) {
        return HELPERS + "jdk/" + name.replace('/', '_').replace('$', '_');
    }

    /** Whether the class is one of static helpers, whose code asks for types and calls interfaces as it stands there. */
    static boolean isHelper(String name) {
        return name.startsWith(HELPERS) && name.endsWith("Helpers") || name.equals(UNSERVED) || name.equals(TABLES);
    }

    static boolean isRaw(String name) {
        return name.startsWith(RAW);
    }
}
