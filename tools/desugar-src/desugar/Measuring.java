package desugar;

import java.io.IOException;
import java.util.ArrayDeque;
import java.util.ArrayList;
import java.util.Collection;
import java.util.Deque;
import java.util.LinkedHashMap;
import java.util.List;
import java.util.Map;
import java.util.Optional;
import java.util.concurrent.ExecutionException;
import java.util.concurrent.ExecutorService;
import java.util.concurrent.Executors;
import java.util.concurrent.Future;

/** Runs suites while further ones are written; of one that passes its units, the tests that don't fit become another. */
final class Measuring {
    /** Writes the classes of a suite of the tests. */
    interface Writer {
        Written write(Part part, int number) throws IOException;

        /** Whether the test needs the class, by its internal name. */
        boolean reaches(Part.Adapter test, String name);

        /** Those of these classes, by their names, that the test may initialise. */
        List<String> initialised(Part.Adapter test, Collection<String> names);
    }

    /** What a class fails by that uses another one which failed before. */
    private static final String ANOTHER = "java.lang.NoClassDefFoundError";

    private final Writer writer;
    private final Electric electric;
    private final Map<String, String> remedies;
    private final Map<Part.Adapter, Status> statuses = new LinkedHashMap<>();
    private final List<String> refusals = new ArrayList<>();

    /** @param remedies what to do about a cut, by its message; filled while suites are written */
    Measuring(Writer writer, Electric electric, Map<String, String> remedies) {
        this.writer = writer;
        this.electric = electric;
        this.remedies = remedies;
    }

    /** What has come of each test of the parts that were measured. */
    Map<Part.Adapter, Status> statuses() {
        return statuses;
    }

    /** Fault lines of suites that were refused whole. */
    List<String> refusals() {
        return refusals;
    }

    void measure(List<Part> parts) throws IOException, InterruptedException {
        ExecutorService workers = Executors.newFixedThreadPool(Math.max(1, Runtime.getRuntime().availableProcessors() - 1));
        try {
            Deque<Part> open = new ArrayDeque<>(parts);
            Deque<Future<PartRun>> running = new ArrayDeque<>();
            for (int number = 1; !open.isEmpty() || !running.isEmpty();) {
                if (open.isEmpty()) {
                    take(running.poll().get(), open);
                } else {
                    Written written = writer.write(open.poll(), number++);
                    running.add(workers.submit(() -> new PartRun(written, electric, remedies).run()));
                }
            }
        } catch (ExecutionException failure) {
            throw new IOException(failure.getCause());
        } finally {
            workers.shutdownNow();
        }
    }

    /** Takes what a run found; the tests that didn't fit, and those of a refused suite that may do without its faulty class, are open. */
    private void take(PartRun run, Deque<Part> open) {
        run.statuses().forEach((test, status) -> statuses.put(test, PartRun.FAILED_CLASS.equals(status.why()) ? named(test, run.failures()) : status));
        run.refusal().ifPresent(fault -> open.addAll(mend(fault, run.tests())));
        if (!run.rest().isEmpty()) {
            open.add(new Part(run.rest()));
        }
    }

    /** What has come of a test that met a class which failed to initialise: the first such class that it uses, and why it failed. */
    private Status named(Part.Adapter test, Map<String, String> failures) {
        List<String> met = failures.isEmpty() ? List.of() : writer.initialised(test, failures.keySet());
        Optional<String> first = met.stream().filter(name -> !failures.get(name).equals(ANOTHER)).findFirst();
        String why = first.map(name -> failures.get(name) + ", as " + name + " was initialised").orElse(PartRun.FAILED_CLASS);
        return Status.left(Status.Kind.UNSERVED, why, first.map(name -> remedies.getOrDefault(failures.get(name), "")).orElse(""));
    }

    /** Leaves out the tests that reach the class that a fault line names. */
    private List<Part> mend(String fault, List<Part.Adapter> tests) {
        refusals.add(fault);
        Optional<String> name = faulty(fault);
        List<Part.Adapter> needing = tests.stream().filter(test -> name.isEmpty() || writer.reaches(test, name.get())).toList();
        List<Part.Adapter> others = new ArrayList<>(tests);
        if (needing.isEmpty()) {
            needing = tests;
        }
        others.removeAll(needing);
        needing.forEach(test -> statuses.put(test, Status.left(Status.Kind.UNSERVED, "a class that it needs was refused: " + fault, "")));
        return others.isEmpty() ? List.of() : List.of(new Part(others));
    }

    /** The internal name of the class that a fault line of a class file, of linking or of the check names. */
    private static Optional<String> faulty(String fault) {
        String[] words = fault.split(" ");
        int at = words[0].equals("link") ? 2 : 1;
        boolean names = List.of("class", "link", "check").contains(words[0]) && words.length > at;
        return names ? Optional.of(words[at].replaceFirst("\\.class$", "").replace('.', '/')) : Optional.empty();
    }
}
