package desugar;

import java.io.File;
import java.io.IOException;
import java.nio.file.Files;
import java.nio.file.Path;
import java.util.ArrayList;
import java.util.Collection;
import java.util.LinkedHashMap;
import java.util.List;
import java.util.Map;
import java.util.stream.Collectors;
import java.util.stream.Stream;
import javax.tools.ToolProvider;

/** Runs test classes by JUnit itself, on this JVM beside it, in the same order. */
final class JUnitRun {
    /**
     * What a test ended in, the worst of its runs: `passed`, `failed`, `error`, `skipped` or `aborted`.
     *
     * @param thrown the class of what it ended with
     */
    record Verdict(String word, String thrown, String message) {
        boolean isBad() {
            return word.equals("failed") || word.equals("error");
        }
    }

    private final Path sources;
    private final Path work;
    private final String classPath;
    private final List<Path> junit;

    /**
     * @param sources the folder with the sources of the programs that run JUnit
     * @param work a folder for what they need and write
     * @param classPath the classes of the project and of its libraries
     * @param junit JUnit's own jars, with those of its launcher and engine
     */
    JUnitRun(Path sources, Path work, String classPath, List<Path> junit) {
        this.sources = sources;
        this.work = work;
        this.classPath = classPath;
        this.junit = junit;
    }

    /**
     * The verdicts of the tests of these classes, by `class.method`, and of a class that failed as a whole by `class.`.
     *
     * @param without tests to leave out, as `class.method`
     */
    Map<String, Verdict> run(List<TestClass> classes, Collection<String> without) throws IOException, InterruptedException {
        Map<String, Verdict> found = new LinkedHashMap<>();
        run(List.of("VintageRun", "OldRun"), names(classes.stream().filter(each -> each.framework() != Framework.JUNIT_5)), without, found);
        run(List.of("JupiterRun"), outermost(classes.stream().filter(each -> each.framework() == Framework.JUNIT_5)), without, found);
        return found;
    }

    private static List<String> names(Stream<TestClass> classes) {
        return classes.map(each -> each.name().replace('/', '.')).toList();
    }

    /** The classes that are nested in no other, each once: JUnit runs those nested in them with them. */
    private static List<String> outermost(Stream<TestClass> classes) {
        return classes.map(each -> each.outer().isEmpty() ? each.name() : each.outer().get(0))
                .distinct()
                .map(name -> name.replace('/', '.'))
                .toList();
    }

    /** @param programs the program that runs the classes of these names, and what it needs */
    private void run(List<String> programs, List<String> names, Collection<String> without, Map<String, Verdict> found) throws IOException, InterruptedException {
        if (names.isEmpty()) {
            return;
        }
        Files.createDirectories(work);
        String path = work + File.pathSeparator + classPath + File.pathSeparator
                + junit.stream().map(Path::toString).collect(Collectors.joining(File.pathSeparator));
        String program = programs.get(0);
        compile(programs, path);
        Path classes = work.resolve(program + ".classes").toAbsolutePath();
        Path verdicts = work.resolve(program + ".verdicts").toAbsolutePath();
        Path leftOut = work.resolve(program + ".without").toAbsolutePath();
        Files.write(classes, names);
        Files.write(leftOut, without);
        Process process = new ProcessBuilder(
                        Path.of(System.getProperty("java.home"), "bin", "java").toString(), "-cp", path, "against." + program,
                        classes.toString(), verdicts.toString(), leftOut.toString())
                .redirectErrorStream(true)
                .redirectOutput(work.resolve(program + ".output").toFile())
                .start();
        process.getOutputStream().close();
        if (process.waitFor() != 0) {
            throw new IOException("JUnit ended with an exit status: see " + work.resolve(program + ".output"));
        }
        for (String line : Files.readAllLines(verdicts)) {
            String[] fields = line.split("\t", -1);
            found.merge(fields[0] + "." + fields[1], new Verdict(fields[2], fields[3], fields[4]), JUnitRun::worse);
        }
    }

    /** The first bad one of two verdicts of a method's runs, or one that isn't skipped. */
    private static Verdict worse(Verdict first, Verdict second) {
        return first.isBad() ? first : second.isBad() || !second.word().equals("passed") && !first.word().equals("passed") ? second
                : first.word().equals("passed") ? first : second;
    }

    private void compile(List<String> programs, String path) throws IOException {
        List<String> words = new ArrayList<>(List.of("-d", work.toString(), "-cp", path, "-nowarn", "-proc:none"));
        words.add(sources.resolve("Verdict.java").toString());
        programs.forEach(name -> words.add(sources.resolve(name + ".java").toString()));
        if (ToolProvider.getSystemJavaCompiler() == null) {
            throw new IOException("--against needs a JDK");
        }
        if (ToolProvider.getSystemJavaCompiler().run(null, null, null, words.toArray(new String[0])) != 0) {
            throw new IOException("--against needs JUnit's jars, with those of its launcher and engine: --junit");
        }
    }
}
