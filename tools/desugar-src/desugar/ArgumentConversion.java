package desugar;

import java.util.Optional;
import org.objectweb.asm.Opcodes;
import org.objectweb.asm.Type;

/** Conversions of constants of annotations to the types of arguments, as JUnit 5 converts them without being told how. */
final class ArgumentConversion {
    private final ClassPath path;

    ArgumentConversion(ClassPath path) {
        this.path = path;
    }

    /**
     * The constant as one of the type: an Integer for each of the small types, a constant of an enum for its name, and else of the type's
     * own box; empty for others.
     */
    Optional<Object> of(Object value, Type to) {
        if (to == null) {
            return Optional.empty();
        }
        return value instanceof String text ? ofText(text, to) : Optional.ofNullable(ofNumber(value, to));
    }

    private static Object ofNumber(Object value, Type to) {
        if (to.getDescriptor().equals("Ljava/lang/Class;")) {
            return value instanceof Type ? value : null;
        }
        Object whole = value instanceof Character letter ? (Object) (int) letter : value instanceof Boolean truth ? (Object) (truth ? 1 : 0) : value;
        if (!(whole instanceof Number number)) {
            return null;
        }
        if (to.getDescriptor().equals("Ljava/lang/Object;")) {
            return value;
        }
        switch (primitive(to)) {
            case 'Z':
                return value instanceof Boolean ? number.intValue() : null;
            case 'C':
                return value instanceof Character ? number.intValue() : null;
            case 'B':
            case 'S':
            case 'I':
                return value instanceof Boolean || value instanceof Long || value instanceof Double || value instanceof Float ? null : number.intValue();
            case 'J':
                return number.longValue();
            case 'F':
                return number.floatValue();
            case 'D':
                return number.doubleValue();
            default:
                return null;
        }
    }

    private Optional<Object> ofText(String text, Type to) {
        if (to.getDescriptor().equals("Ljava/lang/String;") || to.getDescriptor().equals("Ljava/lang/Object;")
                || to.getDescriptor().equals("Ljava/lang/CharSequence;")) {
            return Optional.of(text);
        }
        try {
            switch (primitive(to)) {
                case 'Z':
                    return Optional.of(Boolean.parseBoolean(text) ? 1 : 0);
                case 'C':
                    return text.length() == 1 ? Optional.of((int) text.charAt(0)) : Optional.empty();
                case 'B':
                    return Optional.of((int) Byte.decode(text));
                case 'S':
                    return Optional.of((int) Short.decode(text));
                case 'I':
                    return Optional.of(Integer.decode(text));
                case 'J':
                    return Optional.of(Long.decode(text));
                case 'F':
                    return Optional.of(Float.valueOf(text));
                case 'D':
                    return Optional.of(Double.valueOf(text));
                default:
                    return ofEnum(text, to);
            }
        } catch (NumberFormatException noNumber) {
            return Optional.empty();
        }
    }

    private Optional<Object> ofEnum(String name, Type to) {
        return Optional.of(to)
                .filter(type -> type.getSort() == Type.OBJECT)
                .flatMap(type -> path.find(type.getInternalName()))
                .filter(owner -> owner.fields.stream().anyMatch(field -> field.name.equals(name) && (field.access & Opcodes.ACC_ENUM) != 0))
                .map(owner -> new Plan.EnumConstant(owner.name, name));
    }

    /** The letter of a primitive type or of the one that a box is of; a space for any other. */
    static char primitive(Type type) {
        if (type.getSort() < Type.ARRAY) {
            return type.getDescriptor().charAt(0);
        }
        switch (type.getDescriptor()) {
            case "Ljava/lang/Boolean;":
                return 'Z';
            case "Ljava/lang/Character;":
                return 'C';
            case "Ljava/lang/Byte;":
                return 'B';
            case "Ljava/lang/Short;":
                return 'S';
            case "Ljava/lang/Integer;":
                return 'I';
            case "Ljava/lang/Long;":
                return 'J';
            case "Ljava/lang/Float;":
                return 'F';
            case "Ljava/lang/Double;":
                return 'D';
            default:
                return ' ';
        }
    }

    /** The letter of the primitive type that a box is of. */
    static char primitiveOf(Object box) {
        return primitive(Type.getType(box.getClass()));
    }

    /** The class of a primitive type's box. */
    static String box(char primitive) {
        return "java/lang/" + switch (primitive) {
            case 'Z' -> "Boolean";
            case 'C' -> "Character";
            case 'B' -> "Byte";
            case 'S' -> "Short";
            case 'I' -> "Integer";
            case 'J' -> "Long";
            case 'F' -> "Float";
            default -> "Double";
        };
    }
}
