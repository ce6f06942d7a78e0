package desugar;

import java.util.ArrayList;
import java.util.HashMap;
import java.util.List;
import java.util.Map;
import java.util.Optional;
import java.util.Set;
import java.util.TreeSet;
import org.objectweb.asm.Opcodes;
import org.objectweb.asm.Type;
import org.objectweb.asm.tree.AbstractInsnNode;
import org.objectweb.asm.tree.ClassNode;
import org.objectweb.asm.tree.LdcInsnNode;

/**
 * JUnit 3: public methods `test..` without arguments or result, also inherited ones, of public classes below `TestCase`; around each
 * stand `setUp` and `tearDown`. As `junit.framework.TestSuite` of JUnit 4 has it, those of the class itself come first. Where a class
 * has a static `suite()`, its tests are those that it makes.
 */
final class JUnit3Finder implements Finder {
    private static final String TEST_CASE = "junit/framework/TestCase";
    private static final String NAMED = "(Ljava/lang/String;)V";
    private static final List<String> RUNS = List.of("runBare", "runTest", "run");

    private final ClassPath path;
    private final Inheritance inheritance;
    private final SuiteMethods suites;
    private final Set<String> made = new TreeSet<>();

    JUnit3Finder(ClassPath path, Inheritance inheritance, SuiteMethods suites) {
        this.path = path;
        this.inheritance = inheritance;
        this.suites = suites;
    }

    /** Classes whose tests `suite()` of other classes made, so far. */
    Set<String> made() {
        return made;
    }

    @Override
    public Optional<TestClass> testsOf(ClassNode node) {
        if (!inheritance.isBelow(node, TEST_CASE) || Inheritance.isAbstract(node)) {
            return Optional.empty();
        }
        List<Inheritance.Member> members = inheritance.fromBelow(node).stream()
                .filter(member -> !member.owner().name.equals(TEST_CASE) && isTest(member))
                .toList();
        if (members.isEmpty()) {
            return Optional.empty();
        }
        boolean suite = Inheritance.isPublic(node) && hasSuite(node) && otherSuite(node).isEmpty();
        Optional<List<SuiteMethods.Leaf>> leaves = suite ? suites.leaves(node.name) : Optional.empty();
        List<FoundTest> tests = leaves.isPresent()
                ? ofSuite(node, members, leaves.get())
                : members.stream().map(member -> found(node, member, finding(node, member))).toList();
        return tests.isEmpty() ? Optional.empty() : Optional.of(new TestClass(node.name, Framework.JUNIT_3, tests));
    }

    private static FoundTest found(ClassNode node, Inheritance.Member member, FoundTest.Finding finding) {
        return new FoundTest(Framework.JUNIT_3, node.name, member.ref(), member.line(), finding);
    }

    private static boolean hasSuite(ClassNode node) {
        return node.methods.stream().anyMatch(method -> method.name.equals("suite") && method.desc.startsWith("()")
                && (method.access & Opcodes.ACC_STATIC) != 0 && (method.access & Opcodes.ACC_PUBLIC) != 0);
    }

    /** The tests that `suite()` makes: those of the class itself, and of objects that methods of its own objects answer. */
    private List<FoundTest> ofSuite(ClassNode node, List<Inheritance.Member> members, List<SuiteMethods.Leaf> leaves) {
        Map<List<String>, String> classes = new HashMap<>();
        leaves.forEach(leaf -> classes.put(leaf.path(), leaf.testClass()));
        List<FoundTest> tests = new ArrayList<>();
        for (SuiteMethods.Leaf leaf : leaves) {
            Optional<ClassNode> owner = path.isOfProject(leaf.testClass()) ? path.find(leaf.testClass()) : Optional.empty();
            Optional<Inheritance.Member> member = owner.flatMap(found -> inheritance.fromBelow(found).stream()
                    .filter(each -> isTest(each) && each.method().name.equals(leaf.name()))
                    .findFirst());
            if (member.isEmpty()) {
                continue;
            }
            if (leaf.testClass().equals(node.name) && leaf.path().size() == 1) {
                tests.add(found(node, member.get(), finding(node, member.get())));
                continue;
            }
            made.add(leaf.testClass());
            String label = String.join(".", leaf.path().subList(1, leaf.path().size())) + "." + leaf.name();
            FoundTest.Finding finding = Inheritance.isPublic(member.get().owner())
                    ? made(node, leaf, classes)
                    : new FoundTest.Unserved("the class that declares it isn't public", "JUnit 3 asks for a public class");
            tests.add(new FoundTest(Framework.JUNIT_3, node.name, member.get().ref(), label, member.get().line(), finding));
        }
        return tests;
    }

    /** The plan of a test of an object that methods, each with the name of a suite, answer one after the other. */
    private FoundTest.Finding made(ClassNode node, SuiteMethods.Leaf leaf, Map<List<String>, String> classes) {
        Optional<String> constructor = constructor(node);
        List<Plan.Instance> instances = new ArrayList<>();
        constructor.ifPresent(descriptor -> instances.add(new Plan.Instance(node.name, descriptor)));
        for (int i = 1; constructor.isPresent() && i < leaf.path().size(); i++) {
            String name = leaf.path().get(i);
            String from = instances.get(i - 1).owner();
            String answered = classes.get(leaf.path().subList(0, i + 1));
            Optional<Inheritance.Member> maker = path.find(from).stream()
                    .flatMap(owner -> inheritance.fromBelow(owner).stream())
                    .filter(member -> member.method().name.equals(name) && member.method().desc.startsWith("()L"))
                    .findFirst();
            if (maker.isEmpty() || answered == null) {
                return new FoundTest.Unserved("suite() of its class makes it in the suite " + name, "a test class of its own");
            }
            instances.add(Plan.Instance.made(answered, new MethodRef(from, name, maker.get().method().desc)));
        }
        int last = instances.size() - 1;
        if (last < 1) {
            return new FoundTest.Unserved("suite() of its class makes it by code of its own", "a test class of its own");
        }
        MethodRef test = new MethodRef(leaf.testClass(), leaf.name(), "()V");
        return new FoundTest.Runs(plan(instances, new Plan.Call(test, last, false)));
    }

    private static boolean isTest(Inheritance.Member member) {
        return member.method().name.startsWith("test") && member.method().desc.equals("()V") && member.is(Opcodes.ACC_PUBLIC);
    }

    private FoundTest.Finding finding(ClassNode node, Inheritance.Member test) {
        Optional<String> constructor = constructor(node);
        if (!Inheritance.isPublic(node)) {
            return new FoundTest.Skipped("its class isn't public");
        }
        if (constructor.isEmpty()) {
            return new FoundTest.Skipped("its class has no public constructor without arguments or with a name");
        }
        Optional<String> elsewhere = otherSuite(node);
        if (elsewhere.isPresent()) {
            return new FoundTest.Skipped("suite() of its class names " + elsewhere.get());
        }
        for (String name : RUNS) {
            Optional<Inheritance.Member> own = inheritance.fromBelow(node).stream()
                    .filter(member -> member.method().name.equals(name) && !member.owner().name.startsWith("junit/"))
                    .findFirst();
            if (own.isPresent()) {
                return new FoundTest.Unserved("its class has a " + name + " of its own", "let setUp and tearDown do it");
            }
        }
        int on = test.is(Opcodes.ACC_STATIC) ? -1 : 0;
        Plan.Call call = new Plan.Call(new MethodRef(node.name, test.method().name, "()V"), on, false);
        return new FoundTest.Runs(plan(List.of(new Plan.Instance(node.name, constructor.get())), call));
    }

    /** The plan of a test of the last of the objects. */
    private static Plan plan(List<Plan.Instance> instances, Plan.Call test) {
        int last = instances.size() - 1;
        String owner = instances.get(last).owner();
        return Plan.simple(
                instances,
                test,
                List.of(new Plan.Call(new MethodRef(owner, "setUp", "()V"), last, false)),
                List.of(new Plan.Call(new MethodRef(owner, "tearDown", "()V"), last, false)),
                false);
    }

    /** The descriptor of the constructor that JUnit takes. */
    private static Optional<String> constructor(ClassNode node) {
        return List.of(NAMED, "()V").stream()
                .filter(descriptor -> node.methods.stream()
                        .anyMatch(method -> method.name.equals("<init>")
                                && method.desc.equals(descriptor)
                                && (method.access & Opcodes.ACC_PUBLIC) != 0))
                .findFirst();
    }

    /** Classes other than its own that a static `suite()` of the class names, where its own isn't among them. */
    private Optional<String> otherSuite(ClassNode node) {
        Set<String> named = new TreeSet<>();
        node.methods.stream()
                .filter(method -> method.name.equals("suite") && method.desc.startsWith("()") && (method.access & Opcodes.ACC_STATIC) != 0)
                .forEach(method -> {
                    for (AbstractInsnNode at = method.instructions.getFirst(); at != null; at = at.getNext()) {
                        if (at instanceof LdcInsnNode constant && constant.cst instanceof Type type) {
                            named.add(type.getInternalName());
                        }
                    }
                });
        boolean other = !named.isEmpty() && !named.contains(node.name);
        return other ? Optional.of(String.join(", ", new ArrayList<>(named)).replace('/', '.')) : Optional.empty();
    }
}
