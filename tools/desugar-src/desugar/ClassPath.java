package desugar;

import java.io.IOException;
import java.io.UncheckedIOException;
import java.net.URI;
import java.nio.file.FileSystem;
import java.nio.file.FileSystems;
import java.nio.file.Files;
import java.nio.file.Path;
import java.util.HashMap;
import java.util.LinkedHashSet;
import java.util.List;
import java.util.Map;
import java.util.Optional;
import java.util.Set;
import java.util.stream.Stream;
import org.objectweb.asm.ClassReader;
import org.objectweb.asm.tree.ClassNode;

/** Reads class files of folders and jars, as they stand there; and of the JDK that runs this program. */
final class ClassPath {
    private static final List<String> MODULES = List.of("java.base", "java.desktop", "java.sql", "java.xml", "java.rmi", "java.naming", "java.management");

    private final Map<String, Path> files = new HashMap<>();
    private final Map<String, Optional<ClassNode>> read = new HashMap<>();
    private final Set<String> projectClasses = new LinkedHashSet<>();
    private final FileSystem jdk = FileSystems.getFileSystem(URI.create("jrt:/"));

    /**
     * @param project folders and jars with the project's own classes, main and test
     * @param libraries folders and jars of its libraries, JUnit's among them
     * @throws UncheckedIOException where one of them can't be read
     */
    ClassPath(List<Path> project, List<Path> libraries) {
        project.forEach(root -> list(root, true));
        libraries.forEach(root -> list(root, false));
    }

    private void list(Path root, boolean own) {
        try {
            Path top = Files.isDirectory(root) ? root : FileSystems.newFileSystem(root).getPath("/");
            try (Stream<Path> found = Files.walk(top)) {
                found.filter(file -> file.toString().endsWith(".class")).sorted().forEach(file -> take(top, file, own));
            }
        } catch (IOException failure) {
            throw new UncheckedIOException(root.toString(), failure);
        }
    }

    private void take(Path top, Path file, boolean own) {
        String path = top.relativize(file).toString();
        String name = path.substring(0, path.length() - ".class".length());
        if (name.startsWith("META-INF/") || name.endsWith("module-info")) {
            return;
        }
        if (files.putIfAbsent(name, file) == null && own) {
            projectClasses.add(name);
        }
    }

    /** Names of the project's own classes, root by root, each by path. */
    List<String> projectClasses() {
        return List.copyOf(projectClasses);
    }

    /** Whether it is one of the project's own classes. */
    boolean isOwn(String internalName) {
        return projectClasses.contains(internalName);
    }

    /** Whether a folder or jar has the class, so that it isn't one of the JDK. */
    boolean isOfProject(String internalName) {
        return files.containsKey(internalName);
    }

    /** The class as it stands in the first root that has it, or else in the JDK. The node is shared: don't change it. */
    Optional<ClassNode> find(String internalName) {
        return read.computeIfAbsent(internalName, this::load);
    }

    private Optional<ClassNode> load(String name) {
        Path file = files.get(name);
        return file != null ? Optional.of(parse(file)) : ofJdk(name);
    }

    /** The class as the JDK has it in one of the modules that are served in part, without a look at the project. */
    Optional<ClassNode> ofJdk(String name) {
        for (String module : MODULES) {
            Path file = jdk.getPath("/modules/" + module, name + ".class");
            if (Files.exists(file)) {
                return Optional.of(parse(file));
            }
        }
        return Optional.empty();
    }

    static ClassNode parse(Path file) {
        try {
            ClassNode node = new ClassNode();
            new ClassReader(Files.readAllBytes(file)).accept(node, ClassReader.SKIP_FRAMES);
            return node;
        } catch (IOException failure) {
            throw new UncheckedIOException(file.toString(), failure);
        }
    }
}
