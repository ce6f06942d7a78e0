package desugar;

import java.io.IOException;
import java.io.UncheckedIOException;
import java.nio.file.Files;
import java.nio.file.Path;
import java.util.ArrayList;
import java.util.Collection;
import java.util.LinkedHashMap;
import java.util.List;
import java.util.Map;
import java.util.Optional;
import java.util.concurrent.ConcurrentHashMap;
import java.util.stream.Collectors;
import java.util.stream.Stream;

/** The program `desugar`: finds tests, writes suites of what they reach, runs them, and says what has come of each test. */
final class Main {
    /** Where the launcher found the program's own files. */
    private record Home(Path tools, Path library, Path cache) {
        static Home ofProperties() {
            return new Home(
                    Path.of(System.getProperty("desugar.home")),
                    Path.of(System.getProperty("desugar.library")),
                    Path.of(System.getProperty("desugar.cache")));
        }
    }

    private final CommandLine words;
    private final Home home;
    private final ClassPath path;
    private final Rewriter rewriter;
    private final Map<FoundTest, Part.Adapter> adapters = new LinkedHashMap<>();
    private final Map<String, String> remedies = new ConcurrentHashMap<>();
    private final Map<Part.Adapter, Status> statuses = new LinkedHashMap<>();
    private final Map<Integer, Written> suites = new LinkedHashMap<>();

    private Main(CommandLine words, Home home) {
        this.words = words;
        this.home = home;
        this.path = new ClassPath(words.project, words.libraries);
        this.rewriter = new Rewriter(path, home.library());
    }

    public static void main(String[] words) {
        if (List.of(words).contains("--help")) {
            System.out.println(CommandLine.HELP);
            return;
        }
        try {
            new Main(CommandLine.read(words), Home.ofProperties()).run();
        } catch (CommandLine.Fault fault) {
            System.err.println("desugar: " + fault.getMessage() + "; see desugar --help");
            System.exit(2);
        } catch (IOException | UncheckedIOException | InterruptedException failure) {
            System.err.println("desugar: " + failure.getMessage());
            System.exit(1);
        }
    }

    private void run() throws IOException, InterruptedException {
        long begun = System.nanoTime();
        SuiteMethods made = new SuiteMethods(Stream.concat(words.project.stream(), words.libraries.stream()).toList());
        Discovery.Found found = new Discovery(path, made).find(name -> words.tests.matcher(name).matches());
        List<Part> parts = pack(found.classes());
        Optional<Path> program = program();
        clear(words.out);
        if (program.isPresent()) {
            Measuring measuring = new Measuring(writer(), new Electric(program.get()), remedies);
            measuring.measure(parts);
            statuses.putAll(measuring.statuses());
            measuring.refusals().forEach(fault -> System.err.println("desugar: a suite was refused: " + fault));
        } else {
            writeUnmeasured(parts);
        }
        System.out.println("suites written in " + (System.nanoTime() - begun) / 1_000_000_000 + " s");
        List<FoundTest> all = found.classes().stream().flatMap(each -> each.tests().stream()).toList();
        if (words.against) {
            System.out.println(new Against(words, home.tools().resolve("desugar-src/against"), adapters, statuses).compare(found.classes(), all, suites));
        }
        report(all, found.elsewhere());
    }

    private Optional<Path> program() {
        Path built = home.tools().resolveSibling("crates").resolve("electric/out/electric");
        return words.unmeasured ? Optional.empty() : words.electric.or(() -> Optional.of(built).filter(Files::exists));
    }

    /** Writes the adapters of all test classes, and packs them. */
    private List<Part> pack(List<TestClass> classes) {
        Map<String, TestClass> around = classes.stream().collect(Collectors.toMap(TestClass::name, each -> each));
        AdapterWriter writer = new AdapterWriter(path);
        List<List<Part.Adapter>> byClass = new ArrayList<>();
        for (TestClass testClass : classes) {
            AdapterWriter.Adapters written = writer.write(testClass, around);
            List<Part.Adapter> tests = new ArrayList<>();
            written.tests().forEach((test, name) -> tests.add(adapter(written, test, name)));
            tests.forEach(test -> adapters.put(test.test(), test));
            if (!tests.isEmpty() && !testClass.last().isEmpty()) {
                tests.add(adapter(written, null, AdapterWriter.LAST));
            }
            if (!written.node().methods.isEmpty()) {
                rewriter.add(written.node());
                written.statements().forEach(rewriter::add);
            }
            byClass.add(tests);
        }
        Packing packing = new Packing(rewriter);
        List<Part> parts = packing.pack(byClass);
        packing.tooLarge().forEach((test, number) -> statuses.put(test, Status.left(
                Status.Kind.UNSERVED, "it reaches " + number + " classes, more than a suite may have", "a test of fewer classes")));
        return parts;
    }

    private static Part.Adapter adapter(AdapterWriter.Adapters written, FoundTest test, String name) {
        return new Part.Adapter(test, new MethodRef(written.node().name, name, "()V"));
    }

    private Measuring.Writer writer() {
        return new Measuring.Writer() {
            @Override
            public Written write(Part part, int number) throws IOException {
                return Main.this.write(part, number);
            }

            @Override
            public boolean reaches(Part.Adapter test, String name) {
                return rewriter.reach(List.of(test.method())).classes().contains(name);
            }

            @Override
            public List<String> initialised(Part.Adapter test, Collection<String> names) {
                Rewriter.Growing growing = rewriter.new Growing(Rewriter.Form.LEAN);
                growing.add(List.of(test.method()));
                return names.stream().filter(name -> growing.initialises(name.replace('.', '/'))).toList();
            }
        };
    }

    /** Writes the classes of a part, with the warm-up where one is asked for. */
    private Written write(Part part, int number) throws IOException {
        Path place = words.out.resolve("part" + number);
        SuiteFolder folder = new SuiteFolder(place, words.budget);
        Reached reached = rewriter.reach(part.roots());
        List<Part.Adapter> warm = List.of();
        if (words.warm) {
            String name = "Warm$" + number;
            rewriter.add(rewriter.warmUp(name, reached));
            warm = List.of(new Part.Adapter(null, new MethodRef(name, "warm", "()V")));
            List<MethodRef> roots = new ArrayList<>(part.roots());
            roots.add(0, warm.get(0).method());
            reached = rewriter.reach(roots);
        }
        reached.cuts().forEach(cut -> remedies.putIfAbsent(cut.message(), cut.remedy()));
        folder.writeClasses(rewriter.write(reached));
        Written written = new Written(part, number, place, folder, reached.classes(), warm);
        suites.put(number, written);
        return written;
    }

    private void writeUnmeasured(List<Part> parts) throws IOException {
        int number = 0;
        for (Part part : parts) {
            write(part, ++number).writeText(part.tests());
            for (Part.Adapter test : part.tests()) {
                statuses.put(test, new Status(Status.Kind.SERVED, number, null, "", ""));
            }
        }
    }

    /** Takes out what an earlier run left in the folder. */
    private static void clear(Path out) throws IOException {
        Files.createDirectories(out);
        try (Stream<Path> old = Files.walk(out)) {
            for (Path each : old.sorted((first, second) -> second.compareTo(first)).toList()) {
                if (!each.equals(out) && out.relativize(each).getName(0).toString().matches("part[0-9]+")) {
                    Files.delete(each);
                }
            }
        }
    }

    private void report(List<FoundTest> all, List<FoundTest> elsewhere) throws IOException {
        Report report = new Report(adapters, statuses);
        report.take(all);
        report.take(elsewhere);
        Files.write(words.out.resolve("report"), report.lines());
        System.out.println(report.summary());
        report.reasons().stream().limit(10).forEach(reason -> System.out.println("  " + reason));
    }
}
