package against;

import java.io.PrintWriter;
import java.lang.reflect.Method;
import java.lang.reflect.Modifier;
import java.util.Collections;
import java.util.IdentityHashMap;
import java.util.Map;
import java.util.Set;
import junit.framework.AssertionFailedError;
import junit.framework.Test;
import junit.framework.TestCase;
import junit.framework.TestListener;
import junit.framework.TestResult;
import junit.framework.TestSuite;

/** Runs classes of JUnit 3 by `junit.framework`, so that a test is known by the suites around it too. */
final class OldRun implements TestListener {
    private final PrintWriter out;
    private final Set<String> without;
    private final Map<Test, String> names = new IdentityHashMap<>();
    private String testClass;
    private Verdict verdict;

    /** @param without tests to leave out, as `class.test` */
    OldRun(PrintWriter out, Set<String> without) {
        this.out = out;
        this.without = without;
    }

    /** Runs what `suite()` of the class makes, or else its own tests. */
    void run(Class<? extends TestCase> found) {
        testClass = found.getName();
        try {
            Test suite = suite(found);
            name(suite, null);
            TestResult result = new TestResult();
            result.addListener(this);
            kept(suite).run(result);
        } catch (ReflectiveOperationException | RuntimeException | LinkageError failure) {
            Verdict.of(failure.getCause() == null ? failure : failure.getCause()).print(out, testClass, "");
        }
        out.flush();
    }

    private static Test suite(Class<? extends TestCase> found) throws ReflectiveOperationException {
        try {
            Method suite = found.getDeclaredMethod("suite");
            if (Modifier.isStatic(suite.getModifiers())) {
                return (Test) suite.invoke(null);
            }
        } catch (NoSuchMethodException none) {
            // The class's own tests are its suite.
        }
        return new TestSuite(found);
    }

    /** Names each test by those of the suites around it but for the outermost, and its own. */
    private void name(Test test, String before) {
        if (test instanceof TestSuite) {
            TestSuite suite = (TestSuite) test;
            String inner = before == null ? "" : before + suite.getName() + ".";
            Collections.list(suite.tests()).forEach(each -> name(each, inner));
        } else {
            names.put(test, before + (test instanceof TestCase ? ((TestCase) test).getName() : test.toString()));
        }
    }

    /** The suite without the tests that are left out. */
    private Test kept(Test test) {
        if (!(test instanceof TestSuite)) {
            return test;
        }
        TestSuite kept = new TestSuite(((TestSuite) test).getName());
        for (Test each : Collections.list(((TestSuite) test).tests())) {
            if (!without.contains(testClass + "." + names.get(each))) {
                kept.addTest(kept(each));
            }
        }
        return kept;
    }

    @Override
    public void startTest(Test test) {
        verdict = Verdict.PASSED;
    }

    @Override
    public void addError(Test test, Throwable thrown) {
        verdict = verdict == Verdict.PASSED ? Verdict.of(thrown) : verdict;
    }

    @Override
    public void addFailure(Test test, AssertionFailedError thrown) {
        addError(test, thrown);
    }

    @Override
    public void endTest(Test test) {
        verdict.print(out, testClass, names.getOrDefault(test, test.toString()));
    }
}
