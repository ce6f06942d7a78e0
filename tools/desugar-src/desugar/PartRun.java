package desugar;

import java.io.IOException;
import java.util.ArrayList;
import java.util.LinkedHashMap;
import java.util.List;
import java.util.Map;
import java.util.Optional;
import java.util.stream.Collectors;

/** Runs one suite, and takes out the tests that met what isn't served or passed their units, until it runs through without. */
final class PartRun {
    /** Why a test has no verdict that met a class which failed to initialise, whichever test that failed in. */
    static final String FAILED_CLASS = "class that failed to initialise";
    /** What the line begins with that an initialiser prints which fails: behind it the class, and what it failed by. */
    private static final String FAILED = "##failed ";

    private final Written written;
    private final Electric electric;
    private final Map<String, String> remedies;
    private final List<Part.Adapter> left;
    private final List<Part.Adapter> rest = new ArrayList<>();
    private final Map<Part.Adapter, Status> statuses = new LinkedHashMap<>();
    private final Map<String, String> failures = new LinkedHashMap<>();
    private Optional<String> refusal = Optional.empty();

    /** @param remedies what to do about a cut, by its message */
    PartRun(Written written, Electric electric, Map<String, String> remedies) {
        this.written = written;
        this.electric = electric;
        this.remedies = remedies;
        this.left = new ArrayList<>(written.part().tests());
    }

    /** The tests that didn't fit in the units of the suite, in order. */
    List<Part.Adapter> rest() {
        return rest;
    }

    /** The tests of the suite; where it was refused nothing has come of them. */
    List<Part.Adapter> tests() {
        return left;
    }

    /** What has come of the tests of the suite, and of those that were taken out. */
    Map<Part.Adapter, Status> statuses() {
        return statuses;
    }

    /** The fault line, where the suite was refused whole. */
    Optional<String> refusal() {
        return refusal;
    }

    /** What classes failed by as they were initialised, in that order. */
    Map<String, String> failures() {
        return failures;
    }

    PartRun run() throws IOException, InterruptedException {
        int from = 0;
        while (true) {
            written.writeText(left.subList(from, left.size()));
            Electric.Answer answer = electric.run(written.place());
            if (answer.fault().isPresent()) {
                from = mend(answer.fault().get(), from);
                if (refusal.isPresent()) {
                    return this;
                }
            } else if (from > 0) {
                from = 0;
            } else if (!takeOutMarked(answer.outcomes())) {
                keep(answer.outcomes());
                return this;
            }
        }
    }

    /**
     * Takes out the test that a fault line names, or those from it on, or takes the line as a refusal of the whole suite. Answers where to
     * go on: behind a test that passed its units, as those before it passed none; whether the suite runs through shows a run of all.
     *
     * @param from where the run began that ended so
     */
    private int mend(String fault, int from) {
        String[] words = fault.split(" ");
        int at = words.length < 2 ? -1 : left.stream().map(Part.Adapter::name).toList().indexOf(words[1]);
        boolean passesSuite = words[0].equals("over-suite");
        if (at >= 0 && (words[0].equals("over-budget") || passesSuite && at == from)) {
            statuses.put(left.remove(at), Status.left(Status.Kind.OVER_BUDGET, "it passes the units of a test", "a smaller test, or --budget"));
            return at == left.size() ? 0 : at;
        }
        if (at > 0 && passesSuite && from == 0) {
            int begin = classBegin(at);
            rest.addAll(0, left.subList(begin, left.size()));
            left.subList(begin, left.size()).clear();
        } else if (at < 0 || !passesSuite) {
            refusal = Optional.of(fault);
        }
        return 0;
    }

    /** Where the tests of the class of the test there begin; the test itself where its class stands first. */
    private int classBegin(int at) {
        int from = at;
        while (from > 0 && left.get(from - 1).method().owner().equals(left.get(at).method().owner())) {
            from--;
        }
        return from == 0 ? at : from;
    }

    private boolean takeOutMarked(List<Electric.Outcome> outcomes) {
        Map<String, Part.Adapter> byName = left.stream().collect(Collectors.toMap(Part.Adapter::name, test -> test));
        boolean found = false;
        outcomes.forEach(outcome -> outcome.out().lines().filter(line -> line.startsWith(FAILED)).forEach(this::takeFailure));
        for (Electric.Outcome outcome : outcomes) {
            Part.Adapter test = byName.get(outcome.name());
            Optional<String> mark = mark(outcome.out()).or(() -> failedClass(outcome));
            if (test != null && mark.isPresent()) {
                statuses.put(test, Status.left(Status.Kind.UNSERVED, mark.get(), remedies.getOrDefault(mark.get(), "")));
                left.remove(test);
                found = true;
            }
        }
        return found;
    }

    private void takeFailure(String line) {
        String[] words = line.substring(FAILED.length()).split(" ", 2);
        failures.putIfAbsent(words[0], words[1]);
    }

    /** A test that ends as a class failed to initialise has no verdict, whichever test met the reason. */
    private static Optional<String> failedClass(Electric.Outcome outcome) {
        return outcome.thrown().equals("java.lang.NoClassDefFoundError") ? Optional.of(FAILED_CLASS) : Optional.empty();
    }

    /** What the first marked line of an output says. */
    private static Optional<String> mark(String out) {
        return out.lines()
                .filter(line -> line.contains(Rewriter.MARK))
                .map(line -> line.substring(line.indexOf(Rewriter.MARK) + Rewriter.MARK.length()))
                .findFirst();
    }

    private void keep(List<Electric.Outcome> outcomes) {
        Map<String, Electric.Outcome> byName = outcomes.stream().collect(Collectors.toMap(Electric.Outcome::name, outcome -> outcome));
        left.forEach(test -> statuses.put(test, new Status(Status.Kind.SERVED, written.number(), byName.get(test.name()), "", "")));
    }
}
