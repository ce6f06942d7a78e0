package desugar;

import java.util.List;
import java.util.Map;
import java.util.Set;
import java.util.stream.Collectors;
import org.objectweb.asm.Opcodes;
import org.objectweb.asm.Type;
import org.objectweb.asm.tree.ClassNode;
import org.objectweb.asm.tree.MethodNode;

/**
 * What names and descriptors become: float is int and double long, a Class is a String, StringBuilder and PrintStream are moved, and a class that isn't
 * served is Object. Methods whose parameters change get a name that tells so, so that overloads stay apart.
 */
final class Types {
    static final String CLASS = "java/lang/Class";
    static final String BUILDER = "java/lang/StringBuilder";
    static final String PRINTER = "java/io/PrintStream";
    /** Built-in classes that are moved to classes of the library, which have all of Java's members. */
    static final Map<String, String> REPLACED = Map.of(BUILDER, Library.BUILDER, PRINTER, Library.HELPERS + "PrintStream");
    static final String TYPE = "java/lang/reflect/Type";
    /** Interfaces that String or Class has in Java; String here has none, so that arrays of them are arrays of Object. */
    static final Set<String> OF_STRING =
            Set.of("java/lang/Comparable", "java/lang/CharSequence", "java/io/Serializable", "java/lang/constant/Constable",
                    "java/lang/constant/ConstantDesc", TYPE);
    private static final Map<String, String> MOVED = Map.of(CLASS, Builtins.STRING, BUILDER, Library.BUILDER, PRINTER, REPLACED.get(PRINTER));

    private final World world;
    private int gone;

    Types(World world) {
        this.world = world;
    }

    /** The innermost element class of an array type, or the class itself; null for an array of numbers. */
    static String base(String name) {
        if (!name.startsWith("[")) {
            return name;
        }
        Type element = Type.getType(name).getElementType();
        return element.getSort() == Type.OBJECT ? element.getInternalName() : null;
    }

    static String dotted(String name) {
        return name.replace('/', '.');
    }

    /** The token of a class: what `Class.toString` gives, as a string constant. */
    String token(Type type) {
        switch (type.getSort()) {
            case Type.ARRAY:
                return "class " + dotted(type.getDescriptor());
            case Type.OBJECT:
                return (world.isInterface(type.getInternalName()) ? "interface " : "class ") + type.getClassName();
            default:
                return type.getClassName();
        }
    }

    /** Whether a class is neither built in, nor moved, nor served. */
    boolean isGone(String name) {
        boolean isGone = !MOVED.containsKey(name) && !world.exists(name);
        gone += isGone ? 1 : 0;
        return isGone;
    }

    /** How often a class was asked for that is neither. */
    int countOfGone() {
        return gone;
    }

    String name(String name) {
        if (name.startsWith("[")) {
            return descriptor(name);
        }
        String moved = MOVED.get(name);
        return moved != null ? moved : isGone(name) ? Builtins.OBJECT : name;
    }

    /** The descriptor of a field or method after rewriting; without the marks of a constructor. */
    String descriptor(String descriptor) {
        StringBuilder made = new StringBuilder();
        for (int at = 0; at < descriptor.length(); at++) {
            char letter = descriptor.charAt(at);
            if (letter == 'L') {
                int end = descriptor.indexOf(';', at);
                String name = descriptor.substring(at + 1, end);
                boolean element = at > 0 && descriptor.charAt(at - 1) == '[';
                made.append('L').append(element && OF_STRING.contains(name) ? Builtins.OBJECT : name(name)).append(';');
                at = end;
            } else {
                boolean element = at > 0 && descriptor.charAt(at - 1) == '[';
                made.append(element ? ofElement(letter) : letter == 'F' ? "I" : letter == 'D' ? "J" : String.valueOf(letter));
            }
        }
        return made.toString();
    }

    private static String ofElement(char letter) {
        return letter == 'F' ? "L" + Library.FLOAT + ";" : letter == 'D' ? "L" + Library.DOUBLE + ";" : String.valueOf(letter);
    }

    /** The descriptor that Java has for one after rewriting, as far as arrays of float and double go. */
    static String asInJava(String descriptor) {
        return descriptor.replace(ofElement('F'), "F").replace(ofElement('D'), "D");
    }

    /** The name of a method after rewriting: where parameters change, with a letter for each. */
    String methodName(String name, String descriptor) {
        if (name.startsWith("<")) {
            return name;
        }
        StringBuilder letters = new StringBuilder();
        for (Type parameter : Type.getArgumentTypes(descriptor)) {
            letters.append(letterOf(parameter));
        }
        String suffix = letters.toString();
        return suffix.chars().allMatch(letter -> letter == '_') ? name : name + "$" + suffix;
    }

    private String letterOf(Type parameter) {
        boolean array = parameter.getSort() == Type.ARRAY;
        Type element = array ? parameter.getElementType() : parameter;
        switch (element.getSort()) {
            case Type.FLOAT:
                return "F";
            case Type.DOUBLE:
                return "D";
            case Type.OBJECT:
                String name = element.getInternalName();
                if (name.equals(CLASS)) {
                    return "C";
                }
                if (array && OF_STRING.contains(name)) {
                    return "S";
                }
                return isGone(name) ? name.substring(name.lastIndexOf('/') + 1) : "_";
            default:
                return "_";
        }
    }

    /** The name of a private instance method, which is private no more: one that no class below or above has. */
    String privateName(String owner, String name) {
        return name + "$" + (world.isInterface(owner) ? owner.replace('/', '_') : world.depth(owner));
    }

    /** How many marks a constructor's parameters end with, so that constructors whose descriptors became equal stay apart. */
    int marks(ClassNode owner, String descriptor) {
        String made = descriptor(descriptor);
        List<String> equal = owner.methods.stream()
                .filter(each -> each.name.equals("<init>") && descriptor(each.desc).equals(made))
                .map(each -> each.desc)
                .sorted((one, other) -> Boolean.compare(other.equals(made), one.equals(made)))
                .collect(Collectors.toList());
        return equal.indexOf(descriptor);
    }

    /** The descriptor of a constructor after rewriting, with its marks. */
    String constructorDescriptor(ClassNode owner, String descriptor) {
        String marks = "L" + Library.BARE + ";";
        return descriptor(descriptor).replace(")", marks.repeat(Math.max(0, marks(owner, descriptor))) + ")");
    }

    /** The opcode of a load, store, return or array access for the type that stands in place of this one. */
    static int opcode(Type type, int opcode) {
        switch (type.getSort()) {
            case Type.FLOAT:
                return Type.INT_TYPE.getOpcode(opcode);
            case Type.DOUBLE:
                return Type.LONG_TYPE.getOpcode(opcode);
            default:
                return type.getOpcode(opcode);
        }
    }

    static boolean isStatic(MethodNode method) {
        return (method.access & Opcodes.ACC_STATIC) != 0;
    }

    static boolean isPrivateInstance(int access, String name) {
        return (access & Opcodes.ACC_PRIVATE) != 0 && (access & Opcodes.ACC_STATIC) == 0 && !name.startsWith("<");
    }
}
