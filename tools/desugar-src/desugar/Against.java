package desugar;

import java.io.File;
import java.io.IOException;
import java.nio.file.Files;
import java.nio.file.Path;
import java.util.ArrayList;
import java.util.HashSet;
import java.util.List;
import java.util.Map;
import java.util.Set;
import java.util.TreeMap;
import java.util.stream.Collectors;
import java.util.stream.Stream;

/** Runs JUnit beside, and writes how each test ended there and on the program. */
final class Against {
    private static final Path SHARED = Path.of("/usr/share/java");
    private static final List<String> SHARED_JARS = List.of(
            "junit4", "hamcrest", "junit-jupiter-api", "junit-jupiter-params", "junit-jupiter-engine", "junit-platform-commons",
            "junit-platform-engine", "junit-platform-launcher", "opentest4j", "apiguardian-api");

    private final CommandLine words;
    private final Map<FoundTest, Part.Adapter> adapters;
    private final Map<Part.Adapter, Status> statuses;
    private final JUnitRun junit;

    /**
     * @param sources the folder with the sources of the programs that run JUnit
     * @param statuses what has come of each test; those that differ are changed in it where they are to be left out
     */
    Against(CommandLine words, Path sources, Map<FoundTest, Part.Adapter> adapters, Map<Part.Adapter, Status> statuses) {
        this.words = words;
        this.adapters = adapters;
        this.statuses = statuses;
        String classPath = Stream.concat(words.project.stream(), words.libraries.stream()).map(Path::toString).collect(Collectors.joining(File.pathSeparator));
        this.junit = new JUnitRun(sources, words.out.resolve("junit"), classPath, jars());
    }

    private List<Path> jars() {
        return !words.junit.isEmpty()
                ? words.junit
                : SHARED_JARS.stream().map(name -> SHARED.resolve(name + ".jar")).filter(Files::exists).toList();
    }

    /**
     * Compares the tests of the classes, and answers a line with the numbers. Classes with a difference run on JUnit once more, without the
     * tests that stand in no suite text, as these may leave state behind.
     */
    String compare(List<TestClass> classes, List<FoundTest> all, Map<Integer, Written> suites) throws IOException, InterruptedException {
        Map<String, JUnitRun.Verdict> verdicts = junit.run(classes, List.of());
        Set<String> differing = new HashSet<>();
        for (Comparison.Line line : lines(verdicts, all)) {
            if (line.kind() == Comparison.Kind.DIFFERS) {
                differing.add(line.test().test().testClass());
            }
        }
        List<String> without = all.stream().filter(test -> !isServed(test)).map(FoundTest::shown).toList();
        verdicts.putAll(junit.run(classes.stream().filter(each -> differing.contains(each.name())).toList(), without));
        List<Comparison.Line> lines = lines(verdicts, all);
        if (words.dropDiffering) {
            drop(lines, suites);
        }
        write(lines);
        Map<Comparison.Kind, Integer> numbers = new TreeMap<>();
        lines.forEach(line -> numbers.merge(line.kind(), 1, Integer::sum));
        return "against JUnit: " + numbers.entrySet().stream().map(each -> each.getKey().shown() + " " + each.getValue()).collect(Collectors.joining(" "));
    }

    private List<Comparison.Line> lines(Map<String, JUnitRun.Verdict> verdicts, List<FoundTest> all) {
        return new Comparison(verdicts).of(all, adapters, statuses);
    }

    private boolean isServed(FoundTest test) {
        Status status = statuses.get(adapters.get(test));
        return status != null && status.kind() == Status.Kind.SERVED;
    }

    private void write(List<Comparison.Line> lines) throws IOException {
        List<String> differences = new ArrayList<>();
        List<String> all = new ArrayList<>();
        for (Comparison.Line line : lines) {
            if (line.kind() == Comparison.Kind.DIFFERS || line.kind() == Comparison.Kind.NOT_COMPARED) {
                differences.add(line.shown() + ": JUnit " + line.onJUnit() + "; electric " + line.onProgram());
            }
            all.add(String.join("\t", line.kind().shown(), line.shown(), line.onJUnit(), line.onProgram()));
        }
        Files.write(words.out.resolve("differences"), differences);
        Files.write(words.out.resolve("verdicts"), all);
    }

    /** Takes the tests that differ out of their suite texts. */
    private void drop(List<Comparison.Line> lines, Map<Integer, Written> suites) throws IOException {
        Set<Integer> changed = new HashSet<>();
        for (Comparison.Line line : lines) {
            if (line.kind() == Comparison.Kind.DIFFERS) {
                changed.add(statuses.get(line.test()).part());
                statuses.put(line.test(), Status.left(Status.Kind.DIFFERING, "it ends otherwise than on JUnit: " + line.onProgram(), ""));
            }
        }
        for (int number : changed) {
            Written written = suites.get(number);
            written.writeText(written.part().tests().stream().filter(test -> statuses.get(test).part() == number).toList());
        }
    }
}
