package against;

import static org.junit.platform.engine.discovery.DiscoverySelectors.selectClass;

import java.io.PrintWriter;
import java.nio.file.Files;
import java.nio.file.Path;
import java.util.HashSet;
import java.util.List;
import java.util.Optional;
import java.util.Set;
import org.junit.platform.engine.FilterResult;
import org.junit.platform.engine.TestDescriptor;
import org.junit.platform.engine.TestExecutionResult;
import org.junit.platform.engine.UniqueId;
import org.junit.platform.engine.support.descriptor.ClassSource;
import org.junit.platform.engine.support.descriptor.MethodSource;
import org.junit.platform.launcher.Launcher;
import org.junit.platform.launcher.PostDiscoveryFilter;
import org.junit.platform.launcher.TestExecutionListener;
import org.junit.platform.launcher.TestIdentifier;
import org.junit.platform.launcher.TestPlan;
import org.junit.platform.launcher.core.LauncherDiscoveryRequestBuilder;
import org.junit.platform.launcher.core.LauncherFactory;

/**
 * Runs classes of JUnit 5 by its own engine, in the order given, without some tests: `JupiterRun CLASSES VERDICTS WITHOUT`, all of them
 * files; a line of WITHOUT is `class.method`.
 */
final class JupiterRun implements TestExecutionListener {
    private final PrintWriter out;
    private TestPlan plan;

    private JupiterRun(PrintWriter out) {
        this.out = out;
    }

    public static void main(String[] words) throws Exception {
        List<String> names = Files.readAllLines(Path.of(words[0]));
        Set<String> without = new HashSet<>(Files.readAllLines(Path.of(words[2])));
        PostDiscoveryFilter filter = test -> FilterResult.includedIf(!without.contains(name(test)));
        Launcher launcher = LauncherFactory.create();
        try (PrintWriter out = new PrintWriter(Files.newBufferedWriter(Path.of(words[1])))) {
            for (String name : names) {
                Class<?> found = Class.forName(name, false, JupiterRun.class.getClassLoader());
                launcher.execute(LauncherDiscoveryRequestBuilder.request().selectors(selectClass(found)).filters(filter).build(), new JupiterRun(out));
            }
        }
        Runtime.getRuntime().halt(0);
    }

    @Override
    public void testPlanExecutionStarted(TestPlan started) {
        plan = started;
    }

    @Override
    public void executionSkipped(TestIdentifier skipped, String reason) {
        if (skipped.isTest()) {
            print(skipped, Verdict.SKIPPED);
        } else if (plan.getChildren(skipped).isEmpty()) {
            print(skipped, Verdict.SKIPPED);
        } else {
            plan.getChildren(skipped).forEach(child -> executionSkipped(child, reason));
        }
    }

    @Override
    public void executionFinished(TestIdentifier finished, TestExecutionResult result) {
        Optional<Throwable> thrown = result.getThrowable();
        switch (result.getStatus()) {
            case SUCCESSFUL:
                if (finished.isTest()) {
                    print(finished, Verdict.PASSED);
                }
                break;
            case ABORTED:
                print(finished, Verdict.aborted(thrown.orElseThrow()));
                break;
            default:
                print(finished, Verdict.of(thrown.orElseThrow()));
        }
        out.flush();
    }

    /** A line for a test by its class and method, for an invocation by those of the method, or for a class that failed. */
    private void print(TestIdentifier test, Verdict verdict) {
        Optional<TestIdentifier> at = Optional.of(test);
        while (at.isPresent()) {
            Object source = at.get().getSource().orElse(null);
            if (source instanceof MethodSource) {
                verdict.print(out, className(UniqueId.parse(at.get().getUniqueId())), ((MethodSource) source).getMethodName());
                return;
            }
            if (source instanceof ClassSource) {
                verdict.print(out, ((ClassSource) source).getClassName(), "");
                return;
            }
            at = plan.getParent(at.get());
        }
    }

    /** `class.method` of a test method; empty for anything else. */
    private static String name(TestDescriptor test) {
        Object source = test.getSource().orElse(null);
        return source instanceof MethodSource ? className(test.getUniqueId()) + "." + ((MethodSource) source).getMethodName() : "";
    }

    /** The class that the test is one of, where the method is inherited too. */
    private static String className(UniqueId test) {
        String name = "";
        for (UniqueId.Segment segment : test.getSegments()) {
            if (segment.getType().equals("class")) {
                name = segment.getValue();
            } else if (segment.getType().equals("nested-class")) {
                name += "$" + segment.getValue();
            }
        }
        return name;
    }
}
