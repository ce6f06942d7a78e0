package desugar;

import java.util.ArrayList;
import java.util.List;
import java.util.Map;
import java.util.TreeMap;

/** The report: each test that was found, whether it stands in a suite text, and where it doesn't why, with what to do about it. */
final class Report {
    private final Map<FoundTest, Part.Adapter> adapters;
    private final Map<Part.Adapter, Status> statuses;
    private final List<String> lines = new ArrayList<>();
    private final Map<String, Integer> reasons = new TreeMap<>();
    private int served;
    private int skipped;
    private int unserved;
    private int overBudget;
    private int differing;

    Report(Map<FoundTest, Part.Adapter> adapters, Map<Part.Adapter, Status> statuses) {
        this.adapters = adapters;
        this.statuses = statuses;
    }

    /** Takes the tests, in order. */
    void take(List<FoundTest> tests) {
        tests.forEach(this::take);
    }

    private void take(FoundTest test) {
        String where = test.shown() + (test.line() > 0 ? ":" + test.line() : "");
        if (test.finding() instanceof FoundTest.Skipped finding) {
            skipped++;
            lines.add("skipped " + where + ": " + finding.why());
        } else if (test.finding() instanceof FoundTest.Unserved finding) {
            unserved++;
            leave("unserved", where, finding.why(), finding.remedy());
        } else {
            take(where, adapters.get(test), statuses.get(adapters.get(test)));
        }
    }

    private void take(String where, Part.Adapter adapter, Status status) {
        switch (status.kind()) {
            case SERVED -> {
                served++;
                lines.add("served " + where + " as " + adapter.name() + " in part " + status.part());
            }
            case UNSERVED -> {
                unserved++;
                leave("unserved", where, status.why(), status.remedy());
            }
            case OVER_BUDGET -> {
                overBudget++;
                leave("over-budget", where, status.why(), status.remedy());
            }
            case DIFFERING -> {
                differing++;
                leave("differing", where, status.why(), status.remedy());
            }
        }
    }

    private void leave(String word, String where, String why, String remedy) {
        reasons.merge(why, 1, Integer::sum);
        lines.add(word + " " + where + ": " + why + (remedy.isEmpty() ? "" : "; instead: " + remedy));
    }

    /** One line with the numbers of tests. */
    String summary() {
        int all = served + skipped + unserved + overBudget + differing;
        return "tests " + all + " served " + served + " skipped " + skipped + " unserved " + unserved + " over-budget " + overBudget
                + (differing > 0 ? " differing " + differing : "");
    }

    /** The reasons why tests aren't served, with their numbers of tests, the most frequent first. */
    List<String> reasons() {
        return reasons.entrySet().stream()
                .sorted(Map.Entry.<String, Integer>comparingByValue().reversed())
                .map(reason -> reason.getValue() + " " + reason.getKey())
                .toList();
    }

    /** The whole report. */
    List<String> lines() {
        List<String> all = new ArrayList<>(List.of("desugar-report 1", summary()));
        all.addAll(lines);
        all.add("reasons " + reasons.size());
        all.addAll(reasons());
        return all;
    }
}
