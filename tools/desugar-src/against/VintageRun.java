package against;

import java.io.PrintWriter;
import java.lang.reflect.Modifier;
import java.nio.file.Files;
import java.nio.file.Path;
import java.util.ArrayList;
import java.util.HashSet;
import java.util.List;
import java.util.Set;
import junit.framework.TestCase;
import org.junit.runner.Description;
import org.junit.runner.JUnitCore;
import org.junit.runner.Request;
import org.junit.runner.manipulation.Filter;
import org.junit.runner.notification.Failure;
import org.junit.runner.notification.RunListener;

/**
 * Runs classes of JUnit 3 and 4 by JUnit's own runners, in the order given, without some tests: `VintageRun CLASSES VERDICTS WITHOUT`, all
 * of them files; a line of WITHOUT is `class.test`.
 */
final class VintageRun extends RunListener {
    private final PrintWriter out;
    private Verdict verdict;

    private VintageRun(PrintWriter out) {
        this.out = out;
    }

    public static void main(String[] words) throws Exception {
        Set<String> without = new HashSet<>(Files.readAllLines(Path.of(words[2])));
        List<String> names = Files.readAllLines(Path.of(words[0]));
        try (PrintWriter out = new PrintWriter(Files.newBufferedWriter(Path.of(words[1])))) {
            for (String name : names) {
                Class<?> found = Class.forName(name, false, VintageRun.class.getClassLoader());
                if (TestCase.class.isAssignableFrom(found)) {
                    new OldRun(out, without).run(found.asSubclass(TestCase.class));
                } else if (!Modifier.isAbstract(found.getModifiers())) {
                    JUnitCore core = new JUnitCore();
                    core.addListener(new VintageRun(out));
                    core.run(Request.aClass(found).filterWith(new Kept(without)));
                }
            }
        }
        Runtime.getRuntime().halt(0);
    }

    @Override
    public void testStarted(Description description) {
        verdict = Verdict.PASSED;
    }

    @Override
    public void testFailure(Failure failure) {
        Verdict found = Verdict.of(failure.getException());
        if (failure.getDescription().isTest()) {
            verdict = verdict == Verdict.PASSED ? found : verdict;
        } else {
            found.print(out, failure.getDescription().getClassName(), "");
        }
    }

    @Override
    public void testAssumptionFailure(Failure failure) {
        if (failure.getDescription().isTest()) {
            verdict = Verdict.aborted(failure.getException());
        } else {
            Verdict.aborted(failure.getException()).print(out, failure.getDescription().getClassName(), "");
        }
    }

    @Override
    public void testIgnored(Description description) {
        for (Description test : tests(description)) {
            Verdict.SKIPPED.print(out, test.getClassName(), method(test));
        }
    }

    @Override
    public void testFinished(Description description) {
        verdict.print(out, description.getClassName(), method(description));
        out.flush();
    }

    private static List<Description> tests(Description description) {
        List<Description> found = new ArrayList<>();
        if (description.isTest() && description.getChildren().isEmpty()) {
            found.add(description);
        }
        description.getChildren().forEach(child -> found.addAll(tests(child)));
        return found;
    }

    /** The tests that aren't left out. */
    private static final class Kept extends Filter {
        private final Set<String> without;

        Kept(Set<String> without) {
            this.without = without;
        }

        @Override
        public boolean shouldRun(Description description) {
            List<Description> inner = description.getChildren();
            return inner.isEmpty() ? !without.contains(description.getClassName() + "." + method(description)) : inner.stream().anyMatch(this::shouldRun);
        }

        @Override
        public String describe() {
            return "tests that aren't left out";
        }
    }

    /** The method's name, without what a parametrised runner puts behind it. */
    private static String method(Description description) {
        String name = description.getMethodName();
        int bracket = name == null ? -1 : name.indexOf('[');
        return name == null ? "" : bracket < 0 ? name : name.substring(0, bracket);
    }
}
