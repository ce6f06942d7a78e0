package desugar;

import java.util.ArrayList;
import java.util.List;
import java.util.Locale;
import java.util.Map;

/** Compares what tests ended in on the program with what they ended in on JUnit. */
final class Comparison {
    /** How the two stand to one another. */
    enum Kind {
        SAME,
        DIFFERS,
        /** It stands in no suite text. */
        UNSERVED,
        /** JUnit doesn't run it. */
        SKIPPED,
        /** JUnit has no verdict, or the program none. */
        NOT_COMPARED;

        String shown() {
            return name().toLowerCase(Locale.ROOT).replace('_', '-');
        }
    }

    record Line(Part.Adapter test, String shown, Kind kind, String onJUnit, String onProgram) {}

    private final Map<String, JUnitRun.Verdict> onJUnit;

    Comparison(Map<String, JUnitRun.Verdict> onJUnit) {
        this.onJUnit = onJUnit;
    }

    /** A line for each test that was found, in order. */
    List<Line> of(List<FoundTest> found, Map<FoundTest, Part.Adapter> adapters, Map<Part.Adapter, Status> statuses) {
        List<Line> lines = new ArrayList<>();
        for (FoundTest test : found) {
            Part.Adapter adapter = adapters.get(test);
            Status status = adapter == null ? null : statuses.get(adapter);
            JUnitRun.Verdict verdict = verdict(test);
            String junit = verdict == null ? "none" : shown(verdict.word(), verdict.thrown(), verdict.message());
            lines.add(new Line(adapter, test.shown(), kind(status, verdict), junit, program(status)));
        }
        return lines;
    }

    /** The test's own verdict, or that of its class where that failed as a whole. */
    private JUnitRun.Verdict verdict(FoundTest test) {
        JUnitRun.Verdict own = onJUnit.get(test.shown());
        return own != null ? own : onJUnit.get(test.testClass().replace('/', '.') + ".");
    }

    private static Kind kind(Status status, JUnitRun.Verdict verdict) {
        if (verdict == null || verdict.word().equals("skipped")) {
            return status != null && status.kind() == Status.Kind.SERVED ? Kind.NOT_COMPARED : Kind.SKIPPED;
        }
        if (status == null || status.kind() == Status.Kind.UNSERVED || status.kind() == Status.Kind.OVER_BUDGET) {
            return Kind.UNSERVED;
        }
        if (status.outcome() == null) {
            return Kind.NOT_COMPARED;
        }
        return isSame(status.outcome(), verdict) ? Kind.SAME : Kind.DIFFERS;
    }

    private static boolean isSame(Electric.Outcome outcome, JUnitRun.Verdict verdict) {
        boolean aborted = outcome.out().contains(AdapterWriter.ABORTED);
        if (verdict.word().equals("aborted") || aborted) {
            return verdict.word().equals("aborted") && aborted;
        }
        return outcome.verdict().equals(verdict.word()) && original(outcome.thrown()).equals(verdict.thrown());
    }

    /** The name of the built-in throwable in whose place a class of the library stands. */
    private static String original(String thrown) {
        return Throwables.isOne(thrown.replace('.', '/')) ? "java.lang" + thrown.substring(thrown.lastIndexOf('.')) : thrown;
    }

    private static String program(Status status) {
        if (status == null) {
            return "none";
        }
        Electric.Outcome outcome = status.outcome();
        return outcome == null ? status.why() : shown(outcome.verdict(), outcome.thrown(), outcome.message());
    }

    private static String shown(String word, String thrown, String message) {
        return word + (thrown.isEmpty() ? "" : " " + thrown) + (message.isEmpty() || message.equals("null") ? "" : " \"" + message.replaceAll("\\s", " ") + "\"");
    }
}
