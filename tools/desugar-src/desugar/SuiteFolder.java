package desugar;

import java.io.IOException;
import java.nio.charset.StandardCharsets;
import java.nio.file.Files;
import java.nio.file.Path;
import java.util.List;
import java.util.Map;

/** Writes a suite: its class files and the suite text `s` that names them. */
final class SuiteFolder {
    /** The name of the suite text. */
    static final String TEXT = "s";

    private final Path folder;
    private final int budget;

    SuiteFolder(Path folder, int budget) {
        this.folder = folder;
        this.budget = budget;
    }

    void writeClasses(Map<String, byte[]> classes) throws IOException {
        for (Map.Entry<String, byte[]> each : classes.entrySet()) {
            Path file = folder.resolve(each.getKey() + ".class");
            Files.createDirectories(file.getParent());
            Files.write(file, each.getValue());
        }
    }

    /** Writes the suite text of these classes, by name, and these tests, in order. */
    void writeText(Iterable<String> classes, List<Part.Adapter> tests) throws IOException {
        StringBuilder text = new StringBuilder("electric-suite 1\nbudget ").append(budget).append('\n');
        classes.forEach(name -> text.append("class ").append(name).append(".class\n"));
        tests.forEach(test -> text.append("test ").append(test.name()).append('\n'));
        Files.write(folder.resolve(TEXT), text.append("end\n").toString().getBytes(StandardCharsets.US_ASCII));
    }
}
