package desugar;

import java.util.List;

/**
 * A suite within the limits of one.
 *
 * @param tests its tests, in order
 */
record Part(List<Adapter> tests) {
    /**
     * The adapter of a test.
     *
     * @param test the test; null where the adapter calls what stands behind the last test of a class, or warms up
     */
    record Adapter(FoundTest test, MethodRef method) {
        /** The name in the suite text. */
        String name() {
            return method.shown();
        }
    }

    List<MethodRef> roots() {
        return tests.stream().map(Adapter::method).toList();
    }
}
