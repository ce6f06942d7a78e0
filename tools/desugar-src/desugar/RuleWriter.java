package desugar;

import java.util.List;
import org.objectweb.asm.Opcodes;
import org.objectweb.asm.tree.ClassNode;
import org.objectweb.asm.tree.FieldNode;

/** Writes how rules of JUnit 4 run a test: by a statement that makes the test's calls, which each rule puts another around. */
final class RuleWriter {
    private static final String STATEMENT = "org/junit/runners/model/Statement";
    private static final String DESCRIPTION = "org/junit/runner/Description";
    private static final String RULE = "org/junit/rules/TestRule";
    private static final String OBJECT = "object";

    private final ClassNode statement = new ClassNode();
    private final String owner;

    /** @param owner the class of the object that the test is called on */
    RuleWriter(String name, String owner) {
        this.owner = owner;
        statement.version = Opcodes.V1_8;
        statement.access = Opcodes.ACC_PUBLIC;
        statement.name = name;
        statement.superName = STATEMENT;
        statement.fields.add(new FieldNode(0, OBJECT, "L" + owner + ";", null, null));
        Code make = Code.ofObject(statement, "<init>", constructor().descriptor());
        int object = make.local(1);
        make.load(Opcodes.ALOAD, 0).call(Opcodes.INVOKESPECIAL, new MethodRef(STATEMENT, "<init>", "()V"), false);
        make.load(Opcodes.ALOAD, 0).load(Opcodes.ALOAD, object).field(Opcodes.PUTFIELD, name, OBJECT, "L" + owner + ";");
        make.plain(Opcodes.RETURN);
    }

    private MethodRef constructor() {
        return new MethodRef(statement.name, "<init>", "(L" + owner + ";)V");
    }

    ClassNode statement() {
        return statement;
    }

    /** The code of the statement, to be written. */
    Code evaluate() {
        return Code.ofObject(statement, "evaluate", "()V");
    }

    /** The local variable that takes the object in the code of the statement. */
    int pushObject(Code evaluate) {
        int object = evaluate.local(1);
        evaluate.load(Opcodes.ALOAD, 0).field(Opcodes.GETFIELD, statement.name, OBJECT, "L" + owner + ";").store(Opcodes.ASTORE, object);
        return object;
    }

    /** Makes the statement for the object in a local variable, lets each rule put another around it, and runs the last. */
    void apply(Code code, int object, List<Plan.Field> rules, FoundTest test) {
        int made = code.local(1);
        code.type(Opcodes.NEW, statement.name).plain(Opcodes.DUP).load(Opcodes.ALOAD, object);
        code.call(Opcodes.INVOKESPECIAL, constructor(), false).store(Opcodes.ASTORE, made);
        for (Plan.Field rule : rules) {
            code.load(Opcodes.ALOAD, object).field(Opcodes.GETFIELD, rule.owner(), rule.name(), rule.descriptor()).load(Opcodes.ALOAD, made);
            pushDescription(code, test);
            code.call(Opcodes.INVOKEINTERFACE, new MethodRef(RULE, "apply", "(L" + STATEMENT + ";L" + DESCRIPTION + ";)L" + STATEMENT + ";"), true);
            code.store(Opcodes.ASTORE, made);
        }
        code.load(Opcodes.ALOAD, made).call(Opcodes.INVOKEVIRTUAL, new MethodRef(STATEMENT, "evaluate", "()V"), false);
    }

    private static void pushDescription(Code code, FoundTest test) {
        String arguments = "(Ljava/lang/String;Ljava/lang/String;[Ljava/lang/annotation/Annotation;)";
        code.constant(test.testClass().replace('/', '.')).constant(test.method().name());
        code.number(0).type(Opcodes.ANEWARRAY, "java/lang/annotation/Annotation");
        code.call(Opcodes.INVOKESTATIC, new MethodRef(DESCRIPTION, "createTestDescription", arguments + "L" + DESCRIPTION + ";"), false);
    }
}
