package desugar;

import java.util.ArrayList;
import java.util.HashMap;
import java.util.List;
import java.util.Map;

/** Cuts a project's tests into suites, by test classes, so that each has as many tests and classes as one may have. */
final class Packing {
    /** The most tests and the most classes of a suite, without those of the warm-up. */
    static final int MOST = 1024 - 1;

    private final Rewriter rewriter;
    private final Map<Part.Adapter, Integer> tooLarge = new HashMap<>();
    private final List<Part> parts = new ArrayList<>();
    /** The tests of the part that is being filled, and what they reach. */
    private final List<Part.Adapter> tests = new ArrayList<>();
    private Rewriter.Growing growing;

    Packing(Rewriter rewriter) {
        this.rewriter = rewriter;
    }

    /** Tests that alone reach more classes than a suite may have, with their number. */
    Map<Part.Adapter, Integer> tooLarge() {
        return tooLarge;
    }

    /** @param byClass the adapters of each test class, in order */
    List<Part> pack(List<List<Part.Adapter>> byClass) {
        byClass.forEach(tests -> add(tests, List.of(Rewriter.Form.values())));
        close();
        return parts;
    }

    private void close() {
        if (!tests.isEmpty()) {
            parts.add(new Part(List.copyOf(tests)));
        }
        tests.clear();
        growing = null;
    }

    /** Adds tests to the part, or begins another with them in the first form that it has room in; else one after the other. */
    private void add(List<Part.Adapter> piece, List<Rewriter.Form> forms) {
        if (piece.size() > MOST) {
            add(piece.subList(0, MOST), forms);
            add(piece.subList(MOST, piece.size()), forms);
            return;
        }
        if (piece.isEmpty() || fits(piece)) {
            return;
        }
        close();
        int classes = 0;
        for (Rewriter.Form form : forms) {
            growing = rewriter.new Growing(form);
            classes = growing.add(methods(piece));
            if (classes <= MOST) {
                tests.addAll(piece);
                return;
            }
        }
        growing = null;
        if (piece.size() == 1) {
            tooLarge.put(piece.get(0), classes);
        } else {
            piece.forEach(test -> add(List.of(test), List.of(Rewriter.Form.LEAN)));
        }
    }

    /** Adds tests to the part that is being filled, where it has room. */
    private boolean fits(List<Part.Adapter> piece) {
        if (growing == null || tests.size() + piece.size() > MOST || growing.add(methods(piece)) > MOST) {
            return false;
        }
        return tests.addAll(piece);
    }

    private static List<MethodRef> methods(List<Part.Adapter> piece) {
        return piece.stream().map(Part.Adapter::method).toList();
    }
}
