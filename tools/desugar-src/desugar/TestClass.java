package desugar;

import java.util.List;

/**
 * A class with tests.
 *
 * @param name internal name
 * @param tests its tests, in the order in which its framework runs them
 * @param first static calls before its first test, in order
 * @param last static calls behind its last one, in order
 * @param outer internal names of the classes around it whose `first` comes before its own, the outermost first
 */
record TestClass(String name, Framework framework, List<FoundTest> tests, List<MethodRef> first, List<MethodRef> last, List<String> outer) {
    TestClass(String name, Framework framework, List<FoundTest> tests) {
        this(name, framework, tests, List.of(), List.of(), List.of());
    }

    /** The name of the class that its adapters are written in. */
    String adapter() {
        return adapter(name);
    }

    static String adapter(String testClass) {
        return testClass + "$Run";
    }
}
