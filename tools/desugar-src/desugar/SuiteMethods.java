package desugar;

import java.io.OutputStream;
import java.io.PrintStream;
import java.lang.reflect.Method;
import java.net.MalformedURLException;
import java.net.URL;
import java.net.URLClassLoader;
import java.nio.file.Path;
import java.util.ArrayList;
import java.util.Collections;
import java.util.Enumeration;
import java.util.List;
import java.util.Optional;

/** What static methods `suite()` of JUnit 3 make: they are code, so they are called, on this JVM. */
final class SuiteMethods {
    /**
     * A test of a suite.
     *
     * @param path the names of the suites around it, the outermost first
     * @param testClass internal name of its class
     */
    record Leaf(List<String> path, String testClass, String name) {}

    private final URLClassLoader loader;

    /** @param roots folders and jars with the classes of the project and its libraries */
    SuiteMethods(List<Path> roots) {
        this.loader = new URLClassLoader(roots.stream().map(SuiteMethods::url).toArray(URL[]::new), ClassLoader.getPlatformClassLoader());
    }

    private static URL url(Path root) {
        try {
            return root.toUri().toURL();
        } catch (MalformedURLException impossible) {
            throw new IllegalArgumentException(impossible);
        }
    }

    /** The tests that `suite()` of the class makes, in order; empty where it threw or can't be called. */
    Optional<List<Leaf>> leaves(String testClass) {
        PrintStream out = System.out;
        PrintStream err = System.err;
        System.setOut(new PrintStream(OutputStream.nullOutputStream()));
        System.setErr(System.out);
        try {
            Object suite = loader.loadClass(testClass.replace('/', '.')).getMethod("suite").invoke(null);
            List<Leaf> found = new ArrayList<>();
            walk(suite, List.of(), found);
            return Optional.of(found);
        } catch (ReflectiveOperationException | LinkageError failure) {
            return Optional.empty();
        } finally {
            System.setOut(out);
            System.setErr(err);
        }
    }

    private void walk(Object test, List<String> path, List<Leaf> found) throws ReflectiveOperationException {
        if (loader.loadClass("junit.framework.TestSuite").isInstance(test)) {
            List<String> inner = new ArrayList<>(path);
            inner.add(String.valueOf(call(test, "getName")));
            for (Object each : Collections.list((Enumeration<?>) call(test, "tests"))) {
                walk(each, inner, found);
            }
        } else if (loader.loadClass("junit.framework.TestCase").isInstance(test)) {
            found.add(new Leaf(path, test.getClass().getName().replace('.', '/'), String.valueOf(call(test, "getName"))));
        } else {
            found.add(new Leaf(path, test.getClass().getName().replace('.', '/'), String.valueOf(test)));
        }
    }

    private static Object call(Object on, String name) throws ReflectiveOperationException {
        Method method = on.getClass().getMethod(name);
        method.setAccessible(true);
        return method.invoke(on);
    }
}
