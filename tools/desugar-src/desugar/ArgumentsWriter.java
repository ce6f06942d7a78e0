package desugar;

import java.util.List;
import org.objectweb.asm.Label;
import org.objectweb.asm.Opcodes;
import org.objectweb.asm.Type;

/** Writes the runs of a test with arguments or repetitions: each is made, and the first throwable kept. */
final class ArgumentsWriter {
    /** Helpers that go into the suite: iterators of sources, and values of boxes. */
    static final String HELPERS = "jamuvelor/lib/TestArguments";

    private static final String OBJECT = "java/lang/Object";
    private static final String ARGUMENTS = "org/junit/jupiter/params/provider/Arguments";

    private final ClassPath path;
    private final Code code;
    private final Plan plan;
    private final MethodRef run;
    private final int thrown;

    /** @param run the method that makes one run, with its arguments in an array */
    ArgumentsWriter(ClassPath path, Code code, Plan plan, MethodRef run, int thrown) {
        this.path = path;
        this.code = code;
        this.plan = plan;
        this.run = run;
        this.thrown = thrown;
    }

    void write() {
        for (int i = 0; plan.arguments().isEmpty() && i < plan.repetitions(); i++) {
            code.keepingFirst(thrown, () -> code.number(0).type(Opcodes.ANEWARRAY, OBJECT).call(Opcodes.INVOKESTATIC, run, false));
        }
        for (Plan.Source source : plan.arguments()) {
            if (source instanceof Plan.Literals literals) {
                code.keepingFirst(thrown, () -> runLiterals(literals.values()));
            } else if (source instanceof Plan.Provided provided) {
                code.keepingFirst(thrown, () -> runProvided(provided));
            }
        }
    }

    private void runLiterals(List<Object> values) {
        Type[] types = Type.getArgumentTypes(plan.test().method().descriptor());
        code.number(values.size()).type(Opcodes.ANEWARRAY, OBJECT);
        for (int i = 0; i < values.size(); i++) {
            code.plain(Opcodes.DUP).number(i);
            push(values.get(i), types[i]);
            code.plain(Opcodes.AASTORE);
        }
        code.call(Opcodes.INVOKESTATIC, run, false);
    }

    /** Pushes a constant as an object of the type, or of the type's box. */
    private void push(Object value, Type type) {
        if (value == null) {
            code.plain(Opcodes.ACONST_NULL);
        } else if (value instanceof Plan.EnumConstant constant) {
            code.field(Opcodes.GETSTATIC, constant.owner(), constant.name(), "L" + constant.owner() + ";");
        } else if (value instanceof Plan.Made made) {
            pushMade(made);
        } else if (value instanceof Character letter) {
            code.number(letter).box('C');
        } else if (value instanceof Boolean truth) {
            code.number(truth ? 1 : 0).box('Z');
        } else if (value instanceof String || value instanceof Type) {
            code.constant(value);
        } else {
            char primitive = ArgumentConversion.primitive(type);
            code.constant(value).box(primitive == ' ' ? ArgumentConversion.primitiveOf(value) : primitive);
        }
    }

    private void pushMade(Plan.Made made) {
        if (made.method().name().isEmpty()) {
            Type element = Type.getType(made.method().descriptor().substring(1));
            code.number(0);
            code.newArray(element);
        } else {
            code.call(Opcodes.INVOKESTATIC, made.method(), made.ofInterface());
        }
    }

    private void runProvided(Plan.Provided provided) {
        int iterator = code.local(1);
        if (provided.on() >= 0) {
            code.make(provided.method().owner(), null);
            code.call(provided.ofInterface() ? Opcodes.INVOKEINTERFACE : Opcodes.INVOKEVIRTUAL, provided.method(), provided.ofInterface());
        } else {
            code.call(Opcodes.INVOKESTATIC, provided.method(), provided.ofInterface());
        }
        code.call(Opcodes.INVOKESTATIC, new MethodRef(HELPERS, "iterator", "(Ljava/lang/Object;)Ljava/util/Iterator;"), false);
        code.store(Opcodes.ASTORE, iterator);
        Label next = new Label();
        Label done = new Label();
        code.label(next).load(Opcodes.ALOAD, iterator).call(Opcodes.INVOKEINTERFACE, new MethodRef("java/util/Iterator", "hasNext", "()Z"), true);
        code.jump(Opcodes.IFEQ, done);
        code.keepingFirst(thrown, () -> {
            code.load(Opcodes.ALOAD, iterator);
            code.call(Opcodes.INVOKEINTERFACE, new MethodRef("java/util/Iterator", "next", "()Ljava/lang/Object;"), true);
            pushArray();
            code.call(Opcodes.INVOKESTATIC, run, false);
        });
        code.jump(Opcodes.GOTO, next).label(done);
    }

    /** The arguments on the stack as an array: JUnit's own holder, an array, or one argument. */
    private void pushArray() {
        if (path.isOfProject(ARGUMENTS)) {
            Label other = new Label();
            code.plain(Opcodes.DUP).type(Opcodes.INSTANCEOF, ARGUMENTS).jump(Opcodes.IFEQ, other);
            code.type(Opcodes.CHECKCAST, ARGUMENTS);
            code.call(Opcodes.INVOKEINTERFACE, new MethodRef(ARGUMENTS, "get", "()[Ljava/lang/Object;"), true);
            code.label(other);
        }
        code.call(Opcodes.INVOKESTATIC, new MethodRef(HELPERS, "array", "(Ljava/lang/Object;)[Ljava/lang/Object;"), false);
    }
}
