package jamuvelor.lib;

import java.lang.reflect.Constructor;
import java.lang.reflect.Field;
import java.lang.reflect.Method;
import java.lang.reflect.Modifier;
import java.util.ArrayList;
import java.util.List;

/** Members of classes by the table that a suite has of them: `KIND|NAME|FLAGS|TYPE|PARAMETERS|ANNOTATIONS|THROWN` for each, with class tokens. */
public final class Reflection {
    private Reflection() {}

    private static String token(Class<?> type) {
        return (String) (Object) type;
    }

    private static Unserved unserved(Class<?> owner) {
        return new Unserved("reflection of a class that isn't the project's: ".concat(owner.getName()));
    }

    /** Whether the class of this name, as far as it is told, is below another one. */
    public static boolean isBelow(String name, Class<?> above) {
        String token = Tables.byName(name);
        return token != null && above.isAssignableFrom((Class<?>) (Object) token);
    }

    /** The lines of a class's members. */
    private static String[] lines(Class<?> owner) {
        if (owner.isArray() || owner.isPrimitive()) {
            return new String[0];
        }
        String table = Tables.members(token(owner));
        if (table == null) {
            throw unserved(owner);
        }
        return table.isEmpty() ? new String[0] : table.split("\n");
    }

    private static Class<?> type(String token) {
        return (Class<?>) (Object) ClassHelpers.canonical(token);
    }

    /** The classes of tokens that are joined by commas. */
    public static Class<?>[] types(String tokens) {
        String[] each = tokens.isEmpty() ? new String[0] : tokens.split(",");
        Class<?>[] types = new Class<?>[each.length];
        for (int i = 0; i < each.length; i++) {
            types[i] = type(each[i]);
        }
        return types;
    }

    public static Method[] declaredMethods(Class<?> owner) {
        List<Method> found = new ArrayList<>();
        String[] lines = lines(owner);
        for (int i = 0; i < lines.length; i++) {
            if (lines[i].charAt(0) == 'M') {
                String[] parts = lines[i].split("\\|", -1);
                found.add(new Method(owner, i, parts[1], Integer.parseInt(parts[2]), types(parts[4]), type(parts[3]), parts[5], parts[6]));
            }
        }
        return found.toArray(new Method[0]);
    }

    public static Constructor<?>[] declaredConstructors(Class<?> owner) {
        List<Constructor<?>> found = new ArrayList<>();
        String[] lines = lines(owner);
        for (int i = 0; i < lines.length; i++) {
            if (lines[i].charAt(0) == 'C') {
                String[] parts = lines[i].split("\\|", -1);
                found.add(new Constructor<Object>(owner, i, Integer.parseInt(parts[2]), types(parts[4]), parts[5], parts[6]));
            }
        }
        return found.toArray(new Constructor<?>[0]);
    }

    public static Field[] declaredFields(Class<?> owner) {
        List<Field> found = new ArrayList<>();
        String[] lines = lines(owner);
        for (int i = 0; i < lines.length; i++) {
            if (lines[i].charAt(0) == 'F') {
                String[] parts = lines[i].split("\\|", -1);
                found.add(new Field(owner, i, parts[1], Integer.parseInt(parts[2]), type(parts[3]), parts[5]));
            }
        }
        return found.toArray(new Field[0]);
    }

    /** The class, those above it, and all their interfaces. */
    private static void addAbove(Class<?> type, List<Class<?>> found) {
        for (Class<?> at = type; at != null; at = at.getSuperclass()) {
            if (!found.contains(at)) {
                found.add(at);
            }
        }
        for (Class<?> at = type; at != null; at = at.getSuperclass()) {
            for (Class<?> each : at.getInterfaces()) {
                if (!found.contains(each)) {
                    addAbove(each, found);
                }
            }
        }
    }

    public static Method[] methods(Class<?> owner) {
        List<Class<?>> classes = new ArrayList<>();
        addAbove(owner, classes);
        List<Method> found = new ArrayList<>();
        for (Class<?> type : classes) {
            for (Method each : declaredMethods(type)) {
                boolean inherited = !type.isInterface() || type == owner || !Modifier.isStatic(each.getModifiers());
                if (Modifier.isPublic(each.getModifiers()) && inherited && !overridden(each, found)) {
                    found.add(each);
                }
            }
        }
        return found.toArray(new Method[0]);
    }

    private static boolean overridden(Method method, List<Method> found) {
        for (Method each : found) {
            if (each.getName().equals(method.getName()) && each.getReturnType() == method.getReturnType()
                    && same(each.getParameterTypes(), method.getParameterTypes())) {
                return true;
            }
        }
        return false;
    }

    public static Field[] fields(Class<?> owner) {
        List<Class<?>> classes = new ArrayList<>();
        addAbove(owner, classes);
        List<Field> found = new ArrayList<>();
        for (Class<?> type : classes) {
            for (Field each : declaredFields(type)) {
                if (Modifier.isPublic(each.getModifiers())) {
                    found.add(each);
                }
            }
        }
        return found.toArray(new Field[0]);
    }

    static boolean same(Class<?>[] one, Class<?>[] other) {
        int length = other == null ? 0 : other.length;
        if (one.length != length) {
            return false;
        }
        for (int i = 0; i < length; i++) {
            if (one[i] != other[i]) {
                return false;
            }
        }
        return true;
    }

    /** Of methods of one name and parameters the one whose result is most special. */
    static Method chosen(Method[] methods, Class<?> owner, String name, Class<?>[] parameters) throws NoSuchMethodException {
        Method found = null;
        for (Method each : methods) {
            if (each.getName().equals(name) && same(each.getParameterTypes(), parameters)
                    && (found == null || found.getReturnType() != each.getReturnType()
                            && found.getReturnType().isAssignableFrom(each.getReturnType()))) {
                found = each;
            }
        }
        if (found == null) {
            throw new NoSuchMethodException(shown(owner.getName() + "." + name, parameters));
        }
        return found;
    }

    static Constructor<?> chosen(Class<?> owner, Class<?>[] parameters, boolean all) throws NoSuchMethodException {
        for (Constructor<?> each : declaredConstructors(owner)) {
            if ((all || Modifier.isPublic(each.getModifiers())) && same(each.getParameterTypes(), parameters)) {
                return each;
            }
        }
        throw new NoSuchMethodException(shown(owner.getName() + ".<init>", parameters));
    }

    static Field chosen(Field[] fields, String name) throws NoSuchFieldException {
        for (Field each : fields) {
            if (each.getName().equals(name)) {
                return each;
            }
        }
        throw new NoSuchFieldException(name);
    }

    private static String shown(String name, Class<?>[] parameters) {
        StringBuilder text = new StringBuilder(name).append('(');
        for (int i = 0; parameters != null && i < parameters.length; i++) {
            text.append(i > 0 ? ", " : "").append(parameters[i] == null ? "null" : parameters[i].getName());
        }
        return text.append(')').toString();
    }

    /** Arguments as a member takes them: boxes of its own types. */
    public static Object[] checked(Object[] arguments, Class<?>[] parameters) {
        int count = arguments == null ? 0 : arguments.length;
        if (count != parameters.length) {
            throw new IllegalArgumentException("wrong number of arguments: " + count + " expected: " + parameters.length);
        }
        Object[] checked = new Object[count];
        for (int i = 0; i < count; i++) {
            checked[i] = parameters[i].isPrimitive() ? widened(arguments[i], parameters[i]) : arguments[i];
            boolean fits = checked[i] == null ? !parameters[i].isPrimitive()
                    : parameters[i].isPrimitive() || parameters[i].isInstance(checked[i]);
            if (!fits) {
                throw new IllegalArgumentException("argument type mismatch");
            }
        }
        return checked;
    }

    /** A box of the type, where unboxing and widening give one; else null. */
    private static Object widened(Object box, Class<?> type) {
        String name = type.getName();
        if (box instanceof Boolean) {
            return name.equals("boolean") ? box : null;
        }
        if (box instanceof Character) {
            char letter = (Character) box;
            return name.equals("char") ? box : wider(letter, name, 2);
        }
        if (box instanceof Byte) {
            return name.equals("byte") ? box : wider(((Byte) box).intValue(), name, 1);
        }
        if (box instanceof Short) {
            return name.equals("short") ? box : wider(((Short) box).intValue(), name, 2);
        }
        if (box instanceof Integer) {
            return wider((Integer) box, name, 2);
        }
        if (box instanceof Long) {
            return name.equals("long") ? box : name.equals("float") ? (Object) (float) (Long) box
                    : name.equals("double") ? (Object) (double) (Long) box : null;
        }
        if (box instanceof Float) {
            return name.equals("float") ? box : name.equals("double") ? (Object) (double) (Float) box : null;
        }
        return box instanceof Double && name.equals("double") ? box : null;
    }

    private static Object wider(int number, String name, int from) {
        switch (name) {
            case "short":
                return from < 2 ? (Object) (short) number : null;
            case "int":
                return number;
            case "long":
                return (long) number;
            case "float":
                return (float) number;
            case "double":
                return (double) number;
            default:
                return null;
        }
    }

    public static Object invoke(Class<?> owner, int index, Object target, Object[] arguments) {
        return Tables.invoke(token(owner), index, target, arguments);
    }

    public static Object construct(Class<?> owner, int index, Object[] arguments) {
        return Tables.construct(token(owner), index, arguments);
    }

    public static Object get(Class<?> owner, int index, Object target) {
        return Tables.get(token(owner), index, target);
    }

    public static void set(Class<?> owner, int index, Object target, Object value) {
        Tables.set(token(owner), index, target, value);
    }
}
