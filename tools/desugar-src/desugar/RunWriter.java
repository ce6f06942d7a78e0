package desugar;

import java.util.ArrayList;
import java.util.List;
import java.util.Optional;
import org.objectweb.asm.Label;
import org.objectweb.asm.Opcodes;
import org.objectweb.asm.Type;
import org.objectweb.asm.tree.ClassNode;
import org.objectweb.asm.tree.FieldNode;

/** Writes one run of a test: the objects, the calls around the test, the test, and what it has to end with. */
final class RunWriter {
    private static final String THROWABLE = "java/lang/Throwable";
    /** Throwables that say that an assumption doesn't hold. */
    private static final List<String> ABORTS = List.of("org/junit/internal/AssumptionViolatedException", "org/opentest4j/TestAbortedException");

    private final ClassPath path;
    private final ClassNode node;
    private final Code code;
    private final FoundTest test;
    private final Plan plan;
    private final String shared;
    private final List<ClassNode> statements;
    private final List<Integer> objects = new ArrayList<>();

    /** @param statements takes the classes that rules run a test by */
    RunWriter(ClassPath path, ClassNode node, Code code, FoundTest test, Plan plan, String shared, List<ClassNode> statements) {
        this.path = path;
        this.node = node;
        this.code = code;
        this.test = test;
        this.plan = plan;
        this.shared = shared;
        this.statements = statements;
    }

    /** Writes the run: its arguments are in the array in the local variable, or there are none, where that is -1. */
    void write(int arguments) {
        for (int i = 0; i < plan.instances().size(); i++) {
            make(i, arguments);
        }
        int thrown = code.local(1);
        code.plain(Opcodes.ACONST_NULL).store(Opcodes.ASTORE, thrown);
        if (plan.rules().isEmpty()) {
            callAll(thrown, arguments);
        } else {
            code.keepingFirst(thrown, this::applyRules);
        }
        ABORTS.stream().filter(path::isOfProject).forEach(abort -> endWhere(thrown, abort));
        code.rethrow(() -> code.load(Opcodes.ALOAD, thrown));
    }

    /** Writes the calls around the test, and the test; the first throwable goes to the local variable. */
    private void callAll(int thrown, int arguments) {
        if (!plan.afterAlways()) {
            plan.before().forEach(this::call);
        }
        code.keepingFirst(thrown, () -> {
            if (plan.afterAlways()) {
                plan.before().forEach(this::call);
            }
            expecting(() -> callTest(ofConstructor() ? -1 : arguments));
        });
        plan.after().forEach(call -> code.keepingFirst(thrown, () -> call(call)));
    }

    /** Runs a statement that makes the calls, with the rules around it. */
    private void applyRules() {
        String owner = plan.instances().get(0).owner();
        RuleWriter rules = new RuleWriter(node.name + "$Statement" + (statements.size() + 1), owner);
        Code evaluate = rules.evaluate();
        RunWriter inner = new RunWriter(path, node, evaluate, test, plan, shared, statements);
        inner.objects.add(rules.pushObject(evaluate));
        int thrown = evaluate.local(1);
        evaluate.plain(Opcodes.ACONST_NULL).store(Opcodes.ASTORE, thrown);
        inner.callAll(thrown, -1);
        evaluate.rethrow(() -> evaluate.load(Opcodes.ALOAD, thrown));
        evaluate.plain(Opcodes.RETURN);
        statements.add(rules.statement());
        rules.apply(code, objects.get(0), plan.rules(), test);
    }

    /** Whether the arguments are the constructor's, or go to fields. */
    private boolean ofConstructor() {
        Plan.Instance last = plan.instances().isEmpty() ? null : plan.instances().get(plan.instances().size() - 1);
        return last != null && (!last.fields().isEmpty() || test.framework() == Framework.JUNIT_4);
    }

    private void make(int place, int arguments) {
        Plan.Instance instance = plan.instances().get(place);
        int local = code.local(1);
        objects.add(local);
        Label made = new Label();
        if (plan.shared()) {
            if (node.fields.stream().noneMatch(field -> field.name.equals(shared))) {
                node.fields.add(new FieldNode(Opcodes.ACC_STATIC, shared, "L" + instance.owner() + ";", null, null));
            }
            code.field(Opcodes.GETSTATIC, node.name, shared, "L" + instance.owner() + ";").plain(Opcodes.DUP).store(Opcodes.ASTORE, local);
            code.jump(Opcodes.IFNONNULL, made);
        }
        if (instance.maker() != null) {
            code.load(Opcodes.ALOAD, objects.get(place - 1)).call(Opcodes.INVOKEVIRTUAL, instance.maker(), false);
            code.type(Opcodes.CHECKCAST, instance.owner());
        } else {
            code.type(Opcodes.NEW, instance.owner()).plain(Opcodes.DUP);
            pushConstructorArguments(place, instance, arguments);
            code.call(Opcodes.INVOKESPECIAL, new MethodRef(instance.owner(), "<init>", instance.constructor()), false);
        }
        code.store(Opcodes.ASTORE, local);
        if (plan.shared()) {
            code.load(Opcodes.ALOAD, local).field(Opcodes.PUTSTATIC, node.name, shared, "L" + instance.owner() + ";").label(made);
        }
        if (test.framework() == Framework.JUNIT_3 && place == plan.instances().size() - 1) {
            code.load(Opcodes.ALOAD, local).constant(test.method().name());
            code.call(Opcodes.INVOKEVIRTUAL, new MethodRef(instance.owner(), "setName", "(Ljava/lang/String;)V"), false);
        }
        setFields(instance, local, arguments);
    }

    private void pushConstructorArguments(int place, Plan.Instance instance, int arguments) {
        Type[] types = Type.getArgumentTypes(instance.constructor());
        if (test.framework() == Framework.JUNIT_3 && types.length == 1) {
            code.constant(test.method().name());
        } else if (place > 0) {
            code.load(Opcodes.ALOAD, objects.get(place - 1));
        } else if (types.length > 0) {
            pushArguments(types, arguments);
        }
    }

    private void setFields(Plan.Instance instance, int local, int arguments) {
        for (int i = 0; i < instance.fields().size(); i++) {
            Plan.Field field = instance.fields().get(i);
            if (field != null) {
                code.load(Opcodes.ALOAD, local).load(Opcodes.ALOAD, arguments).number(i).plain(Opcodes.AALOAD);
                code.unbox(Type.getType(field.descriptor())).field(Opcodes.PUTFIELD, field.owner(), field.name(), field.descriptor());
            }
        }
    }

    private void pushArguments(Type[] types, int arguments) {
        for (int i = 0; i < types.length; i++) {
            code.load(Opcodes.ALOAD, arguments).number(i).plain(Opcodes.AALOAD).unbox(types[i]);
        }
    }

    private void call(Plan.Call call) {
        if (call.on() < 0) {
            code.call(Opcodes.INVOKESTATIC, call.method(), call.ofInterface());
        } else {
            code.load(Opcodes.ALOAD, objects.get(call.on()));
            dispatch(call);
        }
    }

    private void dispatch(Plan.Call call) {
        code.call(call.ofInterface() ? Opcodes.INVOKEINTERFACE : Opcodes.INVOKEVIRTUAL, call.method(), call.ofInterface());
        Type result = Type.getReturnType(call.method().descriptor());
        if (result.getSize() > 0) {
            code.plain(result.getSize() == 2 ? Opcodes.POP2 : Opcodes.POP);
        }
    }

    private void callTest(int arguments) {
        Plan.Call call = plan.test();
        if (call.on() < 0) {
            code.call(Opcodes.INVOKESTATIC, call.method(), call.ofInterface());
            return;
        }
        code.load(Opcodes.ALOAD, objects.get(call.on()));
        if (arguments >= 0) {
            pushArguments(Type.getArgumentTypes(call.method().descriptor()), arguments);
        }
        dispatch(call);
    }

    /** JUnit 4's expected throwable: another one is an Exception, none an AssertionError. */
    private void expecting(Runnable body) {
        Optional<String> expected = plan.expected();
        if (expected.isEmpty()) {
            body.run();
            return;
        }
        String shown = expected.get().replace('/', '.');
        Label met = new Label();
        code.guarded(body, THROWABLE, () -> {
            code.plain(Opcodes.DUP).type(Opcodes.INSTANCEOF, expected.get());
            Label other = new Label();
            code.jump(Opcodes.IFEQ, other).plain(Opcodes.POP).jump(Opcodes.GOTO, met).label(other);
            ABORTS.stream().filter(path::isOfProject).forEach(this::throwWhere);
            code.plain(Opcodes.POP).make("java/lang/Exception", "Unexpected exception, expected<" + shown + ">").plain(Opcodes.ATHROW);
        });
        code.type(Opcodes.NEW, "java/lang/AssertionError").plain(Opcodes.DUP).constant("Expected exception: " + shown);
        code.call(Opcodes.INVOKESPECIAL, new MethodRef("java/lang/AssertionError", "<init>", "(Ljava/lang/Object;)V"), false);
        code.plain(Opcodes.ATHROW).label(met);
    }

    /** Throws the throwable on the stack again where it is of the type. */
    private void throwWhere(String type) {
        Label other = new Label();
        code.plain(Opcodes.DUP).type(Opcodes.INSTANCEOF, type).jump(Opcodes.IFEQ, other);
        code.plain(Opcodes.ATHROW).label(other);
    }

    /** Ends the run with a mark where the throwable says that an assumption doesn't hold. */
    private void endWhere(int thrown, String abort) {
        Label other = new Label();
        code.load(Opcodes.ALOAD, thrown).type(Opcodes.INSTANCEOF, abort).jump(Opcodes.IFEQ, other);
        code.print(AdapterWriter.ABORTED + abort.replace('/', '.')).plain(Opcodes.RETURN).label(other);
    }
}
