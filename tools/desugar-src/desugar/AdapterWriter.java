package desugar;

import java.util.ArrayList;
import java.util.HashSet;
import java.util.LinkedHashMap;
import java.util.List;
import java.util.Map;
import java.util.Set;
import org.objectweb.asm.Label;
import org.objectweb.asm.Opcodes;
import org.objectweb.asm.tree.ClassNode;
import org.objectweb.asm.tree.FieldNode;

/**
 * Writes the class with a test class's adapters: for each test a static method without arguments that makes the object and calls what
 * stands before the test, the test, and what stands behind it; and one more for what stands behind the last test of the class.
 */
final class AdapterWriter {
    /** What the line begins with that a test prints whose assumption doesn't hold. */
    static final String ABORTED = "##aborted ";
    /** The name of the test that calls what stands behind the last test of a class. */
    static final String LAST = "afterAll";

    private static final String BEGIN = "begin";
    private static final String BEGUN = "begun";
    private static final String BEGIN_FAULT = "fault";
    private static final String SHARED = "shared";
    private static final String THROWABLE = "java/lang/Throwable";

    /**
     * A class of adapters.
     *
     * @param tests the name of each test's adapter, in order
     * @param statements classes that rules run tests by
     */
    record Adapters(ClassNode node, Map<FoundTest, String> tests, List<ClassNode> statements) {}

    private final ClassPath path;

    AdapterWriter(ClassPath path) {
        this.path = path;
    }

    /**
     * @param first for each class around a test class what has to be called before its first test
     * @return the adapters of the tests that have a plan; without methods where there is none
     */
    Adapters write(TestClass testClass, Map<String, TestClass> around) {
        ClassNode node = new ClassNode();
        node.version = Opcodes.V1_8;
        node.access = Opcodes.ACC_PUBLIC;
        node.name = testClass.adapter();
        node.superName = "java/lang/Object";
        if (!testClass.first().isEmpty()) {
            writeBegin(node, testClass);
        }
        List<String> begins = begins(testClass, around);
        Map<FoundTest, String> names = new LinkedHashMap<>();
        List<ClassNode> statements = new ArrayList<>();
        Set<String> used = new HashSet<>(Set.of(BEGIN, LAST));
        for (FoundTest test : testClass.tests()) {
            if (test.finding() instanceof FoundTest.Runs runs) {
                String name = unused(test.label(), used);
                writeTest(node, name, test, runs.plan(), begins, statements);
                names.put(test, name);
            }
        }
        if (!names.isEmpty() && !testClass.last().isEmpty()) {
            writeLast(node, testClass);
        }
        return new Adapters(node, names, statements);
    }

    private static List<String> begins(TestClass testClass, Map<String, TestClass> around) {
        List<String> begins = new ArrayList<>();
        for (String outer : testClass.outer()) {
            if (around.containsKey(outer) && !around.get(outer).first().isEmpty()) {
                begins.add(TestClass.adapter(outer));
            }
        }
        if (!testClass.first().isEmpty()) {
            begins.add(testClass.adapter());
        }
        return begins;
    }

    /** A name that a suite text can have, and that no other adapter of the class has. */
    private static String unused(String method, Set<String> used) {
        String plain = method.replace('.', '$').replaceAll("[^A-Za-z0-9_$]", "_");
        String name = plain;
        for (int i = 2; !used.add(name); i++) {
            name = plain + "$" + i;
        }
        return name;
    }

    /** What is called once, before the first test of the class; where it throws, each test of the class ends so. */
    private void writeBegin(ClassNode node, TestClass testClass) {
        node.fields.add(new FieldNode(Opcodes.ACC_STATIC, BEGUN, "Z", null, null));
        node.fields.add(new FieldNode(Opcodes.ACC_STATIC, BEGIN_FAULT, "L" + THROWABLE + ";", null, null));
        Code code = Code.method(node, BEGIN, "()V");
        Label run = new Label();
        Label done = new Label();
        code.field(Opcodes.GETSTATIC, node.name, BEGUN, "Z").jump(Opcodes.IFEQ, run);
        code.rethrow(() -> code.field(Opcodes.GETSTATIC, node.name, BEGIN_FAULT, "L" + THROWABLE + ";"));
        code.plain(Opcodes.RETURN).label(run);
        code.plain(Opcodes.ICONST_1).field(Opcodes.PUTSTATIC, node.name, BEGUN, "Z");
        code.guarded(() -> testClass.first().forEach(call -> code.call(Opcodes.INVOKESTATIC, call, isInterface(call.owner()))), THROWABLE, () -> {
            code.plain(Opcodes.DUP).field(Opcodes.PUTSTATIC, node.name, BEGIN_FAULT, "L" + THROWABLE + ";");
            code.plain(Opcodes.ATHROW);
        });
        code.label(done).plain(Opcodes.RETURN);
    }

    private void writeLast(ClassNode node, TestClass testClass) {
        Code code = Code.method(node, LAST, "()V");
        int thrown = code.local(1);
        code.plain(Opcodes.ACONST_NULL).store(Opcodes.ASTORE, thrown);
        testClass.last().forEach(call -> code.keepingFirst(thrown, () -> code.call(Opcodes.INVOKESTATIC, call, isInterface(call.owner()))));
        code.rethrow(() -> code.load(Opcodes.ALOAD, thrown));
        code.plain(Opcodes.RETURN);
    }

    private boolean isInterface(String owner) {
        return path.find(owner).filter(Inheritance::isInterface).isPresent();
    }

    private void writeTest(
            ClassNode node, String name, FoundTest test, Plan plan, List<String> begins, List<ClassNode> statements) {
        Code code = Code.method(node, name, "()V");
        // A handler around the whole, as handlers tell where a class failed to initialise by what isn't served.
        code.guarded(() -> {
            begins.forEach(owner -> code.call(Opcodes.INVOKESTATIC, new MethodRef(owner, BEGIN, "()V"), false));
            if (plan.arguments().isEmpty() && plan.repetitions() == 1) {
                new RunWriter(path, node, code, test, plan, SHARED, statements).write(-1);
            } else {
                writeRuns(node, name, test, plan, code, statements);
            }
        }, THROWABLE, () -> code.plain(Opcodes.ATHROW));
        code.plain(Opcodes.RETURN);
    }

    /** Writes the runs of a test with arguments or repetitions, and the method that makes one. */
    private void writeRuns(ClassNode node, String name, FoundTest test, Plan plan, Code code, List<ClassNode> statements) {
        MethodRef run = new MethodRef(node.name, name + "$run", "([Ljava/lang/Object;)V");
        Code body = Code.method(node, run.name(), run.descriptor());
        body.local(1);
        new RunWriter(path, node, body, test, plan, SHARED, statements).write(0);
        body.plain(Opcodes.RETURN);
        int thrown = code.local(1);
        code.plain(Opcodes.ACONST_NULL).store(Opcodes.ASTORE, thrown);
        new ArgumentsWriter(path, code, plan, run, thrown).write();
        code.rethrow(() -> code.load(Opcodes.ALOAD, thrown));
    }
}
