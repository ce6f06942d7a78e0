package desugar;

import java.util.ArrayList;
import java.util.HashSet;
import java.util.List;
import java.util.Optional;
import java.util.Set;
import java.util.function.Predicate;
import org.objectweb.asm.tree.ClassNode;
import org.objectweb.asm.tree.MethodNode;

/** Finds the tests of a project by the rules of JUnit 3, 4 and 5, class by class. */
final class Discovery {
    private static final List<String> TESTS =
            List.of("org/junit/Test", "org/junit/jupiter/api/Test", "org/junit/jupiter/params/ParameterizedTest",
                    "org/junit/jupiter/api/RepeatedTest", "org/junit/jupiter/api/TestFactory");

    /**
     * What was found.
     *
     * @param classes the classes with tests, by name
     * @param elsewhere methods that carry an annotation of a test, and are a test of no class
     */
    record Found(List<TestClass> classes, List<FoundTest> elsewhere) {}

    private final ClassPath path;
    private final JUnit3Finder junit3;
    private final List<Finder> finders;

    Discovery(ClassPath path, SuiteMethods suites) {
        Inheritance inheritance = new Inheritance(path);
        this.path = path;
        this.junit3 = new JUnit3Finder(path, inheritance, suites);
        this.finders = List.of(junit3, new JUnit4Finder(inheritance), new JUnit5Finder(path, inheritance));
    }

    /** The tests whose `class.method` the predicate takes. */
    Found find(Predicate<String> taken) {
        List<TestClass> classes = new ArrayList<>();
        List<String> names = path.projectClasses().stream().sorted().toList();
        for (String name : names) {
            ClassNode node = path.find(name).orElseThrow();
            finders.stream()
                    .flatMap(finder -> finder.testsOf(node).stream())
                    .findFirst()
                    .flatMap(found -> taking(found, taken))
                    .ifPresent(classes::add);
        }
        classes.removeIf(each -> junit3.made().contains(each.name()) && each.tests().stream().allMatch(test -> test.finding() instanceof FoundTest.Skipped));
        return new Found(classes, elsewhere(names, classes, taken));
    }

    private static Optional<TestClass> taking(TestClass found, Predicate<String> taken) {
        List<FoundTest> tests = found.tests().stream().filter(test -> taken.test(test.shown())).toList();
        return tests.isEmpty()
                ? Optional.empty()
                : Optional.of(new TestClass(found.name(), found.framework(), tests, found.first(), found.last(), found.outer()));
    }

    private List<FoundTest> elsewhere(List<String> names, List<TestClass> classes, Predicate<String> taken) {
        Set<MethodRef> known = new HashSet<>();
        classes.forEach(found -> found.tests().forEach(test -> known.add(test.method())));
        List<FoundTest> found = new ArrayList<>();
        for (String name : names) {
            ClassNode node = path.find(name).orElseThrow();
            for (MethodNode method : node.methods) {
                Inheritance.Member member = new Inheritance.Member(node, method);
                Annotations annotations = Annotations.of(method);
                if (TESTS.stream().anyMatch(annotations::has) && !known.contains(member.ref()) && taken.test(member.ref().shown())) {
                    Framework framework = annotations.has(TESTS.get(0)) ? Framework.JUNIT_4 : Framework.JUNIT_5;
                    FoundTest.Skipped why = new FoundTest.Skipped("no class that " + framework + " runs has it");
                    found.add(new FoundTest(framework, name, member.ref(), member.line(), why));
                }
            }
        }
        return found;
    }
}
