package desugar;

import java.io.IOException;
import java.nio.file.Files;
import java.nio.file.Path;
import java.util.ArrayList;
import java.util.List;
import java.util.Map;
import org.objectweb.asm.Opcodes;
import org.objectweb.asm.tree.ClassNode;
import org.objectweb.asm.tree.MethodNode;

/**
 * Writes a suite of the static methods `test..` of the classes in a folder: `CaseSuite CLASSES LIBRARY OUT`. What is cut is said on
 * standard output.
 */
final class CaseSuite {
    private static final String BUDGET = "67108864";

    private CaseSuite() {}

    public static void main(String[] words) throws IOException {
        Path classes = Path.of(words[0]);
        ClassPath path = new ClassPath(List.of(classes), List.of());
        Rewriter rewriter = new Rewriter(path, Path.of(words[1]));
        List<MethodRef> roots = new ArrayList<>();
        for (String name : path.projectClasses()) {
            ClassNode node = path.find(name).orElseThrow();
            for (MethodNode method : node.methods) {
                boolean isStatic = (method.access & Opcodes.ACC_STATIC) != 0;
                if (isStatic && method.name.startsWith("test") && method.desc.equals("()V")) {
                    roots.add(new MethodRef(name, method.name, method.desc));
                }
            }
        }
        Reached reached = rewriter.reach(roots);
        write(rewriter.write(reached), roots, Path.of(words[2]));
        System.out.println("classes " + reached.classes().size() + " used " + reached.reach().used().size() + " methods " + reached.methods().size());
        reached.cuts().forEach(cut -> System.out.println("cut " + cut.message()));
    }

    private static void write(Map<String, byte[]> classes, List<MethodRef> roots, Path out) throws IOException {
        StringBuilder suite = new StringBuilder("electric-suite 1\nbudget " + BUDGET + "\n");
        for (Map.Entry<String, byte[]> each : classes.entrySet()) {
            Path file = out.resolve(each.getKey() + ".class");
            Files.createDirectories(file.getParent());
            Files.write(file, each.getValue());
            suite.append("class ").append(each.getKey()).append(".class\n");
        }
        for (MethodRef root : roots) {
            suite.append("test ").append(root.shown()).append("\n");
        }
        Files.writeString(out.resolve("s"), suite + "end\n");
    }
}
