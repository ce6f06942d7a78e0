package desugar;

import java.util.ArrayList;
import java.util.Comparator;
import java.util.List;
import java.util.Optional;
import java.util.function.Predicate;
import org.objectweb.asm.Opcodes;
import org.objectweb.asm.Type;
import org.objectweb.asm.tree.AnnotationNode;
import org.objectweb.asm.tree.ClassNode;
import org.objectweb.asm.tree.FieldNode;

/**
 * JUnit 5: methods with `@Test`, `@ParameterizedTest` or `@RepeatedTest`, also inherited and nested ones, with what `@BeforeEach`,
 * `@AfterEach`, `@BeforeAll` and `@AfterAll` put around them. An annotation may stand for those that it carries itself.
 */
final class JUnit5Finder implements Finder {
    static final String API = "org/junit/jupiter/api/";
    private static final String PARAMETERIZED = "org/junit/jupiter/params/ParameterizedTest";
    private static final String EXTEND_WITH = API + "extension/ExtendWith";
    private static final List<String> TESTS =
            List.of(API + "Test", PARAMETERIZED, API + "RepeatedTest", API + "TestFactory", API + "TestTemplate");
    private static final int DEFAULT_ORDER = Integer.MAX_VALUE / 2;

    private final ClassPath path;
    private final Inheritance inheritance;
    private final ArgumentSources sources;

    JUnit5Finder(ClassPath path, Inheritance inheritance) {
        this.path = path;
        this.inheritance = inheritance;
        this.sources = new ArgumentSources(path, inheritance);
    }

    @Override
    public Optional<TestClass> testsOf(ClassNode node) {
        if (Inheritance.isAbstract(node) || Inheritance.isLocal(node)) {
            return Optional.empty();
        }
        List<Inheritance.Member> members = inheritance.fromAbove(node);
        List<Inheritance.Member> tests = members.stream().filter(member -> TESTS.stream().anyMatch(name -> has(member, name))).toList();
        if (tests.isEmpty()) {
            return Optional.empty();
        }
        List<FoundTest> found = ordered(node, tests).stream()
                .map(test -> new FoundTest(Framework.JUNIT_5, node.name, test.ref(), test.line(), finding(node, members, test)))
                .toList();
        List<Inheritance.Member> last = new ArrayList<>(marked(inheritance.fromBelow(node), "AfterAll"));
        List<String> outer = around(node).stream().map(owner -> owner.name).toList();
        return Optional.of(new TestClass(
                node.name, Framework.JUNIT_5, found, refs(marked(members, "BeforeAll")), refs(last), outer.subList(0, outer.size() - 1)));
    }

    private static List<MethodRef> refs(List<Inheritance.Member> members) {
        return members.stream().map(Inheritance.Member::ref).toList();
    }

    private boolean has(Inheritance.Member member, String name) {
        return annotations(member).has(name);
    }

    private Annotations annotations(Inheritance.Member member) {
        return Annotations.of(member.method()).composed(path);
    }

    private List<Inheritance.Member> marked(List<Inheritance.Member> members, String name) {
        return members.stream().filter(member -> has(member, API + name)).toList();
    }

    /** An annotation of the class or of one above it. */
    private Optional<AnnotationNode> inherited(ClassNode node, String name) {
        return inheritance.chain(node).stream().flatMap(owner -> Annotations.of(owner).composed(path).get(name).stream()).findFirst();
    }

    private List<Inheritance.Member> ordered(ClassNode node, List<Inheritance.Member> tests) {
        Optional<String> orderer = inherited(node, API + "TestMethodOrder")
                .flatMap(order -> Annotations.value(order, "value"))
                .map(value -> ((Type) value).getInternalName());
        if (orderer.isEmpty()) {
            return tests;
        }
        return switch (orderer.get().substring(orderer.get().lastIndexOf('$') + 1)) {
            case "OrderAnnotation" -> sorted(tests, Comparator.comparingInt(this::order));
            case "MethodName", "Alphanumeric" -> sorted(tests, Comparator.<Inheritance.Member, String>comparing(test -> test.method().name)
                    .thenComparing(test -> test.method().desc));
            case "DisplayName" -> sorted(tests, Comparator.comparing(this::displayName));
            default -> tests;
        };
    }

    private static List<Inheritance.Member> sorted(List<Inheritance.Member> tests, Comparator<Inheritance.Member> by) {
        return tests.stream().sorted(by).toList();
    }

    private int order(Inheritance.Member test) {
        return annotations(test).get(API + "Order").flatMap(order -> Annotations.value(order, "value")).map(value -> (Integer) value).orElse(DEFAULT_ORDER);
    }

    private String displayName(Inheritance.Member test) {
        return annotations(test).get(API + "DisplayName").flatMap(name -> Annotations.text(name, "value")).orElse(test.method().name + "()");
    }

    private FoundTest.Finding finding(ClassNode node, List<Inheritance.Member> members, Inheritance.Member test) {
        List<ClassNode> around = around(node);
        Optional<FoundTest.Finding> skipped = skipped(around, annotations(test));
        if (skipped.isPresent()) {
            return skipped.get();
        }
        return fault(node, around, test)
                .<FoundTest.Finding>map(fault -> fault)
                .orElseGet(() -> plan(node, around, members, test));
    }

    /** Conditions of the test, its class and those around it. */
    private Optional<FoundTest.Finding> skipped(List<ClassNode> around, Annotations ofTest) {
        List<Annotations> all = new ArrayList<>(List.of(ofTest));
        around.forEach(owner -> inheritance.chain(owner).forEach(above -> all.add(Annotations.of(above).composed(path))));
        for (Annotations annotations : all) {
            if (annotations.has(API + "Disabled")) {
                return Optional.of(new FoundTest.Skipped("@Disabled"));
            }
            Optional<String> condition = annotations.beginning(API + "condition/");
            if (condition.isPresent()) {
                return Optional.of(new FoundTest.Unserved("the condition @" + simple(condition.get()), "leave it out of the class"));
            }
        }
        return Optional.empty();
    }

    private static String simple(String name) {
        return name.substring(name.lastIndexOf('/') + 1);
    }

    private Optional<FoundTest.Unserved> fault(ClassNode node, List<ClassNode> around, Inheritance.Member test) {
        for (ClassNode owner : around) {
            for (ClassNode above : inheritance.chain(owner)) {
                Annotations annotations = Annotations.of(above).composed(path);
                if (annotations.has(EXTEND_WITH) || annotations.has(EXTEND_WITH + "s") && !annotations.has(PARAMETERIZED)) {
                    return unserved("@ExtendWith of its class", "@BeforeEach and @AfterEach");
                }
                for (FieldNode field : above.fields) {
                    Annotations ofField = Annotations.of(field).composed(path);
                    if (ofField.has(API + "extension/RegisterExtension") || ofField.has(API + "io/TempDir")) {
                        return unserved("the field " + field.name + ", which an extension fills", "@BeforeEach and @AfterEach");
                    }
                }
            }
        }
        Annotations annotations = annotations(test);
        if (annotations.has(API + "TestFactory")) {
            return unserved("@TestFactory", "@ParameterizedTest or @Test");
        }
        if (annotations.has(API + "TestTemplate") && !annotations.has(PARAMETERIZED) && !annotations.has(API + "RepeatedTest")) {
            return unserved("@TestTemplate", "@ParameterizedTest or @Test");
        }
        boolean extended = Annotations.of(test.method()).has(EXTEND_WITH);
        if (extended || annotations.has(EXTEND_WITH) && !annotations.has(PARAMETERIZED)) {
            return unserved("@ExtendWith", "@BeforeEach and @AfterEach");
        }
        if (test.is(Opcodes.ACC_STATIC) || test.is(Opcodes.ACC_PRIVATE)) {
            return unserved("the method is static or private", "JUnit 5 asks for another");
        }
        if (!annotations.has(PARAMETERIZED) && Type.getArgumentTypes(test.method().desc).length > 0) {
            return unserved("its argument, which an extension gives", "a test without arguments");
        }
        return Optional.empty();
    }

    private static Optional<FoundTest.Unserved> unserved(String why, String remedy) {
        return Optional.of(new FoundTest.Unserved(why, remedy));
    }

    /** The classes around a nested one, the outermost first and the class itself last. */
    private List<ClassNode> around(ClassNode node) {
        List<ClassNode> found = new ArrayList<>(List.of(node));
        while (isNested(found.get(0))) {
            found.add(0, Inheritance.outer(found.get(0)).flatMap(outer -> path.find(outer.name())).orElseThrow());
        }
        return found;
    }

    private static boolean isNested(ClassNode node) {
        return Inheritance.outer(node).filter(outer -> !outer.isStatic()).isPresent();
    }

    private FoundTest.Finding plan(ClassNode node, List<ClassNode> around, List<Inheritance.Member> members, Inheritance.Member test) {
        List<Plan.Instance> instances = new ArrayList<>();
        List<Plan.Call> before = new ArrayList<>();
        List<Plan.Call> after = new ArrayList<>();
        for (ClassNode owner : around) {
            int on = instances.size();
            if (isNested(owner) && !Annotations.of(owner).composed(path).has(API + "Nested")) {
                return new FoundTest.Skipped("its class is an inner one without @Nested");
            }
            String constructor = isNested(owner) ? "(L" + around.get(on - 1).name + ";)V" : "()V";
            if (owner.methods.stream().noneMatch(method -> method.name.equals("<init>") && method.desc.equals(constructor))) {
                return new FoundTest.Unserved("the arguments of its class's constructor", "a constructor without arguments");
            }
            instances.add(new Plan.Instance(owner.name, constructor));
            marked(inheritance.fromAbove(owner), "BeforeEach").forEach(member -> before.add(call(member, on)));
            after.addAll(0, marked(inheritance.fromBelow(owner), "AfterEach").stream().map(member -> call(member, on)).toList());
        }
        for (Plan.Call call : both(before, after)) {
            if (!call.method().descriptor().equals("()V")) {
                return new FoundTest.Unserved("the argument of " + call.method().shown() + ", which an extension gives", "a method without arguments");
            }
        }
        return complete(node, around, test, Plan.simple(instances, call(test, instances.size() - 1), before, after, true));
    }

    private static List<Plan.Call> both(List<Plan.Call> before, List<Plan.Call> after) {
        List<Plan.Call> calls = new ArrayList<>(before);
        calls.addAll(after);
        return calls;
    }

    private static Plan.Call call(Inheritance.Member member, int on) {
        return new Plan.Call(member.ref(), member.is(Opcodes.ACC_STATIC) ? -1 : on, member.ofInterface());
    }

    /** The plan with what is called before the class's first test, with one object for its tests, and with arguments. */
    private FoundTest.Finding complete(ClassNode node, List<ClassNode> around, Inheritance.Member test, Plan plain) {
        Predicate<Inheritance.Member> isStatic = member -> member.is(Opcodes.ACC_STATIC);
        for (ClassNode owner : around) {
            List<Inheritance.Member> once = new ArrayList<>(marked(inheritance.fromAbove(owner), "BeforeAll"));
            once.addAll(marked(inheritance.fromAbove(owner), "AfterAll"));
            if (!once.stream().allMatch(isStatic.and(member -> member.method().desc.equals("()V")))) {
                return new FoundTest.Unserved("@BeforeAll or @AfterAll that isn't static, without arguments", "a static one");
            }
        }
        boolean begins = around.stream().anyMatch(owner -> !marked(inheritance.fromAbove(owner), "BeforeAll").isEmpty());
        boolean shared = inherited(node, API + "TestInstance")
                .flatMap(instance -> Annotations.value(instance, "value"))
                .filter(value -> ((String[]) value)[1].equals("PER_CLASS"))
                .isPresent();
        if (shared && around.size() > 1) {
            return new FoundTest.Unserved("one object for the tests of a nested class", "an object for each test");
        }
        Annotations annotations = annotations(test);
        int times = annotations.get(API + "RepeatedTest").map(repeated -> (Integer) Annotations.value(repeated, "value").orElse(1)).orElse(1);
        Plan plan = plain.begun(begins).sharing(shared);
        if (!annotations.has(PARAMETERIZED)) {
            return new FoundTest.Runs(plan.with(List.of(), times));
        }
        ArgumentSources.Answer given = sources.of(node, test, annotations, plan.instances().size() - 1);
        return given.fault()
                .<FoundTest.Finding>map(fault -> fault)
                .orElseGet(() -> new FoundTest.Runs(plan.with(given.sources(), 1)));
    }
}
