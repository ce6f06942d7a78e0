package desugar;

/**
 * A test method as its framework finds it.
 *
 * @param testClass internal name of the class that the test is one of, where the method is inherited too
 * @param method the method where it is declared
 * @param label the test's name in its class: the method's, and before it those of the suites that the class puts around it
 * @param line the source line where its code begins, 0 where the class file doesn't tell
 */
record FoundTest(Framework framework, String testClass, MethodRef method, String label, int line, Finding finding) {
    FoundTest(Framework framework, String testClass, MethodRef method, int line, Finding finding) {
        this(framework, testClass, method, method.name(), line, finding);
    }

    /** What comes of a test: a plan to run it, or the reason why it isn't run. */
    sealed interface Finding permits Runs, Skipped, Unserved {}

    record Runs(Plan plan) implements Finding {}

    /** The framework itself doesn't run it, by an annotation. */
    record Skipped(String why) implements Finding {}

    record Unserved(String why, String remedy) implements Finding {}

    /** `a.b.CartTest.testAdd`: the class that the test is one of, and its name there. */
    String shown() {
        return testClass.replace('/', '.') + "." + label;
    }
}
