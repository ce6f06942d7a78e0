package desugar;

import java.util.ArrayList;
import java.util.Comparator;
import java.util.List;
import java.util.Optional;
import org.objectweb.asm.Opcodes;
import org.objectweb.asm.Type;
import org.objectweb.asm.tree.AnnotationNode;
import org.objectweb.asm.tree.ClassNode;
import org.objectweb.asm.tree.FieldNode;

/** JUnit 4: methods with `@Test` of concrete classes, with what `@Before`, `@After`, `@BeforeClass` and `@AfterClass` put around them. */
final class JUnit4Finder implements Finder {
    private static final String JUNIT = "org/junit/";
    private static final String RUN_WITH = "org/junit/runner/RunWith";
    private static final String PARAMETERIZED = "org/junit/runners/Parameterized";
    private static final String TEST_RULE = "org/junit/rules/TestRule";
    private static final List<String> PLAIN_RUNNERS =
            List.of("org/junit/runners/JUnit4", "org/junit/runners/BlockJUnit4ClassRunner", "org/junit/internal/runners/JUnit4ClassRunner");
    private static final List<String> GROUP_RUNNERS =
            List.of("org/junit/runners/Suite", "org/junit/experimental/runners/Enclosed", "org/junit/experimental/categories/Categories");

    private final Inheritance inheritance;

    JUnit4Finder(Inheritance inheritance) {
        this.inheritance = inheritance;
    }

    @Override
    public Optional<TestClass> testsOf(ClassNode node) {
        if (Inheritance.isAbstract(node) || inheritance.isBelow(node, "junit/framework/TestCase")) {
            return Optional.empty();
        }
        List<Inheritance.Member> members = inheritance.fromBelow(node);
        List<Inheritance.Member> tests = members.stream().filter(member -> has(member, "Test")).toList();
        if (tests.isEmpty()) {
            return Optional.empty();
        }
        List<FoundTest> found = ordered(node, tests).stream()
                .map(test -> new FoundTest(Framework.JUNIT_4, node.name, test.ref(), test.line(), finding(node, members, test)))
                .toList();
        return Optional.of(new TestClass(
                node.name, Framework.JUNIT_4, found, statics(befores(members, "BeforeClass")), statics(marked(members, "AfterClass")), List.of()));
    }

    private static boolean has(Inheritance.Member member, String annotation) {
        return Annotations.of(member.method()).has(JUNIT + annotation);
    }

    private List<Inheritance.Member> ordered(ClassNode node, List<Inheritance.Member> tests) {
        Optional<String> order = annotation(node, "org/junit/FixMethodOrder")
                .flatMap(fixed -> Annotations.value(fixed, "value"))
                .map(value -> ((String[]) value)[1]);
        if (!order.equals(Optional.of("NAME_ASCENDING"))) {
            return tests;
        }
        // Within each class alone, as JUnit sorts the methods that a class declares.
        List<String> owners = inheritance.chain(node).stream().map(owner -> owner.name).toList();
        return tests.stream()
                .sorted(Comparator.<Inheritance.Member>comparingInt(test -> owners.indexOf(test.owner().name))
                        .thenComparing(test -> test.method().name))
                .toList();
    }

    /** An annotation that is inherited from the classes above. */
    private Optional<AnnotationNode> annotation(ClassNode node, String name) {
        return inheritance.chain(node).stream().flatMap(owner -> Annotations.of(owner).get(name).stream()).findFirst();
    }

    private FoundTest.Finding finding(ClassNode node, List<Inheritance.Member> members, Inheritance.Member test) {
        Optional<AnnotationNode> ignored = Annotations.of(test.method()).get(JUNIT + "Ignore").or(() -> Annotations.of(node).get(JUNIT + "Ignore"));
        if (ignored.isPresent()) {
            return new FoundTest.Skipped("@Ignore");
        }
        Optional<String> runner = annotation(node, RUN_WITH)
                .flatMap(with -> Annotations.value(with, "value"))
                .map(value -> ((Type) value).getInternalName());
        if (runner.isPresent() && GROUP_RUNNERS.contains(runner.get())) {
            return new FoundTest.Skipped("its class is run by " + runner.get().replace('/', '.') + ", which runs others");
        }
        boolean parameterized = runner.equals(Optional.of(PARAMETERIZED));
        if (runner.isPresent() && !parameterized && !PLAIN_RUNNERS.contains(runner.get())) {
            return new FoundTest.Unserved("@RunWith(" + runner.get().replace('/', '.') + ")", "a test of the plain runner");
        }
        Optional<FoundTest.Unserved> fault = fault(node, members, test, parameterized);
        return fault.isPresent() ? fault.get() : plan(node, members, test, parameterized);
    }

    private Optional<FoundTest.Unserved> fault(
            ClassNode node, List<Inheritance.Member> members, Inheritance.Member test, boolean parameterized) {
        if (!Inheritance.isPublic(node)) {
            return Optional.of(new FoundTest.Unserved("its class isn't public", "JUnit 4 asks for a public class"));
        }
        if (!test.method().desc.equals("()V") || test.is(Opcodes.ACC_STATIC) || !test.is(Opcodes.ACC_PUBLIC)) {
            return Optional.of(new FoundTest.Unserved("the method isn't public, without arguments or result", "JUnit 4 asks for such a one"));
        }
        for (ClassNode owner : inheritance.chain(node)) {
            for (FieldNode field : owner.fields) {
                Annotations found = Annotations.of(field);
                boolean served = isRule(field) && !parameterized && inheritance.implementsInterface(Type.getType(field.desc), TEST_RULE);
                if (!served && found.has("org/junit/Rule") || found.has("org/junit/ClassRule")) {
                    return Optional.of(new FoundTest.Unserved("the rule " + field.name, "@Before and @After, or a try in the test"));
                }
            }
        }
        return members.stream()
                .filter(member -> has(member, "Rule") || has(member, "ClassRule"))
                .findFirst()
                .map(rule -> new FoundTest.Unserved("the rule " + rule.method().name, "@Before and @After, or a try in the test"));
    }

    private FoundTest.Finding plan(ClassNode node, List<Inheritance.Member> members, Inheritance.Member test, boolean parameterized) {
        Plan plain = Plan.simple(
                        List.of(new Plan.Instance(node.name, "()V")),
                        call(node, test),
                        befores(members, "Before").stream().map(member -> call(node, member)).toList(),
                        marked(members, "After").stream().map(member -> call(node, member)).toList(),
                        true)
                .expecting(expected(test))
                .begun(!marked(members, "BeforeClass").isEmpty());
        if (!parameterized) {
            return new FoundTest.Runs(plain.ruled(rules(node)));
        }
        Optional<Inheritance.Member> source = members.stream()
                .filter(member -> Annotations.of(member.method()).has(PARAMETERIZED + "$Parameters") && member.is(Opcodes.ACC_STATIC))
                .findFirst();
        Optional<String> constructor = node.methods.stream().filter(method -> method.name.equals("<init>")).map(method -> method.desc).findFirst();
        if (source.isEmpty() || constructor.isEmpty()) {
            return new FoundTest.Unserved("no static method with @Parameters", "JUnit 4 asks for one");
        }
        Plan.Instance made = new Plan.Instance(node.name, constructor.get(), parameterFields(node));
        return new FoundTest.Runs(new Plan(List.of(made), false, plain.begin(), plain.before(), plain.test(), plain.after(), true,
                plain.expected(), List.of(new Plan.Provided(source.get().ref(), -1, false)), 1, List.of()));
    }

    private static boolean isRule(FieldNode field) {
        return Annotations.of(field).has("org/junit/Rule") && (field.access & Opcodes.ACC_STATIC) == 0;
    }

    /** The fields with `@Rule`, those of the class itself first. */
    private List<Plan.Field> rules(ClassNode node) {
        return inheritance.chain(node).stream()
                .flatMap(owner -> owner.fields.stream().filter(JUnit4Finder::isRule).map(field -> new Plan.Field(owner.name, field.name, field.desc)))
                .toList();
    }

    /** The fields with `@Parameter`, by their numbers. */
    private List<Plan.Field> parameterFields(ClassNode node) {
        List<Plan.Field> fields = new ArrayList<>();
        for (ClassNode owner : inheritance.chain(node)) {
            for (FieldNode field : owner.fields) {
                Annotations.of(field).get(PARAMETERIZED + "$Parameter").ifPresent(parameter -> {
                    int place = (Integer) Annotations.value(parameter, "value").orElse(0);
                    while (fields.size() <= place) {
                        fields.add(null);
                    }
                    fields.set(place, new Plan.Field(owner.name, field.name, field.desc));
                });
            }
        }
        return fields;
    }

    private static Plan.Call call(ClassNode node, Inheritance.Member member) {
        boolean ofInterface = member.ofInterface();
        return new Plan.Call(new MethodRef(ofInterface ? member.owner().name : node.name, member.method().name, member.method().desc), 0, ofInterface);
    }

    private static Optional<String> expected(Inheritance.Member test) {
        return Annotations.of(test.method())
                .get("org/junit/Test")
                .flatMap(node -> Annotations.value(node, "expected"))
                .map(value -> ((Type) value).getInternalName())
                .filter(name -> !name.equals("org/junit/Test$None"));
    }

    private static List<Inheritance.Member> marked(List<Inheritance.Member> members, String annotation) {
        return members.stream().filter(member -> has(member, annotation)).toList();
    }

    /** Those of superclasses first: JUnit puts each that it finds before the ones that it has. */
    private static List<Inheritance.Member> befores(List<Inheritance.Member> members, String annotation) {
        List<Inheritance.Member> found = new ArrayList<>();
        marked(members, annotation).forEach(member -> found.add(0, member));
        return found;
    }

    private static List<MethodRef> statics(List<Inheritance.Member> members) {
        return members.stream().filter(member -> member.is(Opcodes.ACC_STATIC)).map(Inheritance.Member::ref).toList();
    }
}
