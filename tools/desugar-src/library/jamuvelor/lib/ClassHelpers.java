package jamuvelor.lib;

import java.lang.reflect.Constructor;
import java.lang.reflect.Field;
import java.lang.reflect.Method;
import java.lang.reflect.Modifier;
import java.util.ArrayList;

/**
 * Members of Class. A class is its token, the text that `Class.toString` gives, as a string constant: it has no place in memory, and one
 * identity.
 */
public final class ClassHelpers {
    private static final int INTERFACE = 0x0200;
    private static final int ABSTRACT = 0x0400;
    private static final int SYNTHETIC = 0x1000;
    private static final int ANNOTATION = 0x2000;
    private static final int ENUM = 0x4000;
    private static final String CLASS = "class ";
    private static final String INTERFACES = "interface ";

    private ClassHelpers() {}

    static boolean isToken(String text) {
        return StringHelpers.startsWith(text, CLASS) && text.length() > 6 && StringHelpers.indexOf(text, ' ', 6) < 0
                || StringHelpers.startsWith(text, INTERFACES);
    }

    private static String token(Class<?> type) {
        return (String) (Object) type;
    }

    private static Class<?> type(String token) {
        return (Class<?>) (Object) token;
    }

    /** The name in a token. */
    static String nameOf(String token) {
        return token.substring(StringHelpers.indexOf(token, ' ') + 1);
    }

    public static String getName(Class<?> type) {
        return nameOf(token(type));
    }

    public static String getTypeName(Class<?> type) {
        return isArray(type) ? getTypeName(getComponentType(type)).concat("[]") : getName(type);
    }

    public static String toString(Class<?> type) {
        return token(type);
    }

    public static int hashCode(Class<?> type) {
        return token(type).hashCode();
    }

    public static boolean equals(Class<?> type, Object other) {
        return (Object) type == other;
    }

    public static String getSimpleName(Class<?> type) {
        if (isArray(type)) {
            return getSimpleName(getComponentType(type)).concat("[]");
        }
        String name = getName(type);
        int from = StringHelpers.lastIndexOf(name, '.') + 1;
        int nested = StringHelpers.lastIndexOf(name, '$');
        if (nested > from) {
            from = nested + 1;
            while (from < name.length() && name.charAt(from) >= '0' && name.charAt(from) <= '9') {
                from++;
            }
        }
        return name.substring(from);
    }

    public static String getCanonicalName(Class<?> type) {
        if (isArray(type)) {
            String element = getCanonicalName(getComponentType(type));
            return element == null ? null : element.concat("[]");
        }
        String name = getName(type);
        int nested = StringHelpers.lastIndexOf(name, '$');
        if (nested >= 0 && nested + 1 < name.length() && name.charAt(nested + 1) >= '0' && name.charAt(nested + 1) <= '9') {
            return null;
        }
        return StringHelpers.replace(name, '$', '.');
    }

    public static String getPackageName(Class<?> type) {
        String name = getName(type);
        int end = StringHelpers.lastIndexOf(name, '.');
        return end < 0 ? "" : name.substring(0, end);
    }

    public static Package getPackage(Class<?> type) {
        return isArray(type) || isPrimitive(type) ? null : new Package(getPackageName(type));
    }

    /** The one loader; null for classes of the JDK, as for those that its first loader has. */
    public static ClassLoader getClassLoader(Class<?> type) {
        boolean ofJdk = isArray(type) || isPrimitive(type) || StringHelpers.startsWith(getName(type), "java.");
        return ofJdk ? null : ClassLoader.getSystemClassLoader();
    }

    /** The class that a name with `$` says that this one stands in. */
    public static Class<?> getEnclosingClass(Class<?> type) {
        String name = getName(type);
        int nested = StringHelpers.lastIndexOf(name, '$');
        if (nested <= 0 || isArray(type)) {
            return null;
        }
        String outer = name.substring(0, nested);
        String token = Tables.byName(outer);
        return type(token != null ? token : CLASS.concat(outer));
    }

    public static Class<?> getDeclaringClass(Class<?> type) {
        return isAnonymousClass(type) ? null : getEnclosingClass(type);
    }

    public static boolean isMemberClass(Class<?> type) {
        return getDeclaringClass(type) != null;
    }

    public static boolean isLocalClass(Class<?> type) {
        return false;
    }

    public static boolean desiredAssertionStatus(Class<?> type) {
        return false;
    }

    public static boolean isInstance(Class<?> type, Object object) {
        return object != null && (token(type).equals("class java.lang.Object") || Tables.isInstance(token(type), object));
    }

    public static Object cast(Class<?> type, Object object) {
        if (object != null && !isInstance(type, object)) {
            throw new ClassCastException("Cannot cast " + nameOf(ObjectHelpers.token(object)) + " to " + getName(type));
        }
        return object;
    }

    @SuppressWarnings("unchecked")
    public static <U> Class<? extends U> asSubclass(Class<?> type, Class<U> above) {
        if (!isAssignableFrom(above, type)) {
            throw new ClassCastException(token(type));
        }
        return (Class<? extends U>) type;
    }

    public static boolean isArray(Class<?> type) {
        return StringHelpers.startsWith(token(type), "class [");
    }

    public static boolean isInterface(Class<?> type) {
        return StringHelpers.startsWith(token(type), INTERFACES);
    }

    public static boolean isPrimitive(Class<?> type) {
        return StringHelpers.indexOf(token(type), ' ') < 0;
    }

    public static boolean isEnum(Class<?> type) {
        return (Tables.modifiers(token(type)) & ENUM) != 0 && "class java.lang.Enum".equals(Tables.superOf(token(type)));
    }

    public static boolean isAnnotation(Class<?> type) {
        return (Tables.modifiers(token(type)) & ANNOTATION) != 0;
    }

    public static boolean isSynthetic(Class<?> type) {
        return (Tables.modifiers(token(type)) & SYNTHETIC) != 0;
    }

    public static int getModifiers(Class<?> type) {
        return isInterface(type) ? Tables.modifiers(token(type)) | INTERFACE | ABSTRACT : Tables.modifiers(token(type));
    }

    public static boolean isAnonymousClass(Class<?> type) {
        return !isArray(type) && getSimpleName(type).isEmpty();
    }

    public static Class<?> getSuperclass(Class<?> type) {
        return isArray(type) ? type("class java.lang.Object") : type(Tables.superOf(token(type)));
    }

    public static Class<?>[] getInterfaces(Class<?> type) {
        String joined = Tables.interfacesOf(token(type));
        String[] names = joined == null ? new String[0] : StringHelpers.split(joined, ",");
        for (int i = 0; i < names.length; i++) {
            names[i] = canonical(names[i]);
        }
        return (Class<?>[]) (Object) names;
    }

    public static Class<?> getComponentType(Class<?> type) {
        return isArray(type) ? type(ofDescriptor(token(type).substring(7))) : null;
    }

    /** The token of the class that a descriptor with dots tells. */
    private static String ofDescriptor(String descriptor) {
        switch (descriptor.charAt(0)) {
            case 'L':
                String name = descriptor.substring(1, descriptor.length() - 1);
                String token = Tables.byName(name);
                return token != null ? token : CLASS.concat(name);
            case '[':
                return canonical(CLASS.concat(descriptor));
            case 'Z':
                return "boolean";
            case 'C':
                return "char";
            case 'B':
                return "byte";
            case 'S':
                return "short";
            case 'I':
                return "int";
            case 'J':
                return "long";
            case 'F':
                return "float";
            default:
                return "double";
        }
    }

    /** The one String that is the token of this text, where code has it as a constant. */
    static String canonical(String token) {
        switch (token) {
            case "boolean":
                return "boolean";
            case "char":
                return "char";
            case "byte":
                return "byte";
            case "short":
                return "short";
            case "int":
                return "int";
            case "long":
                return "long";
            case "float":
                return "float";
            case "double":
                return "double";
            case "void":
                return "void";
            default:
                String known = Tables.byName(nameOf(token));
                return known != null ? known : token;
        }
    }

    public static Class<?> getPrimitiveClass(String name) {
        return type(canonical(name));
    }

    public static Object[] getEnumConstants(Class<?> type) {
        return Tables.enumValues(token(type));
    }

    public static boolean isAssignableFrom(Class<?> above, Class<?> type) {
        if (above == type || token(above).equals("class java.lang.Object") && !isPrimitive(type)) {
            return true;
        }
        if (isArray(above) && isArray(type)) {
            return isAssignableFrom(getComponentType(above), getComponentType(type));
        }
        if (isArray(type)) {
            return token(above).equals("interface java.lang.Cloneable") || token(above).equals("interface java.io.Serializable");
        }
        return token(above).equals(token(type)) || isBelow(token(type), token(above));
    }

    private static boolean isBelow(String token, String above) {
        String joined = Tables.interfacesOf(token);
        if (joined != null) {
            for (String each : StringHelpers.split(joined, ",")) {
                if (each.equals(above) || isBelow(each, above)) {
                    return true;
                }
            }
        }
        String next = Tables.superOf(token);
        return next != null && (next.equals(above) || isBelow(next, above));
    }

    public static Object newInstance(Class<?> type) {
        return Tables.newInstance(token(type));
    }

    public static Class<?> forName(String name) throws ClassNotFoundException {
        if (name == null) {
            throw new NullPointerException();
        }
        String token = name.isEmpty() ? null : name.charAt(0) == '[' ? ofArray(name) : Tables.byName(name);
        if (token == null) {
            throw absent(name, name);
        }
        return type(token);
    }

    /** The token of an array's class by its name, such as `[La.b.C;`. */
    private static String ofArray(String name) throws ClassNotFoundException {
        String known = Tables.byName(name);
        int from = 0;
        while (from < name.length() && name.charAt(from) == '[') {
            from++;
        }
        String element = name.substring(from);
        boolean ofClass = StringHelpers.startsWith(element, "L") && StringHelpers.endsWith(element, ";");
        boolean ofNumbers = element.length() == 1 && StringHelpers.indexOf("ZCBSIJFD", element.charAt(0)) >= 0;
        String inner = ofClass ? element.substring(1, element.length() - 1) : "";
        if (known == null && !ofNumbers && (inner.isEmpty() || Tables.byName(inner) == null)) {
            throw absent(name, inner);
        }
        return known != null ? known : CLASS.concat(name);
    }

    /** A class of no name that one may have isn't there; of any other it isn't known whether it is. */
    private static ClassNotFoundException absent(String asked, String name) {
        boolean primitive = StringHelpers.indexOf(" boolean char byte short int long float double void ", " ".concat(name).concat(" ")) >= 0;
        boolean mayBe = !name.isEmpty() && !primitive && StringHelpers.indexOf(name, "..") < 0;
        for (int i = 0; i < name.length(); i++) {
            mayBe = mayBe && StringHelpers.indexOf("[];/ ", name.charAt(i)) < 0;
        }
        if (mayBe && name.charAt(0) != '.' && name.charAt(name.length() - 1) != '.') {
            throw new Unserved("java.lang.Class.forName of ".concat(asked));
        }
        return new ClassNotFoundException(asked);
    }

    public static Class<?> forName(String name, boolean initialise, ClassLoader loader) throws ClassNotFoundException {
        return forName(name);
    }


    public static Method[] getDeclaredMethods(Class<?> type) {
        return Reflection.declaredMethods(type);
    }

    public static Method[] getMethods(Class<?> type) {
        return Reflection.methods(type);
    }

    public static Method getDeclaredMethod(Class<?> type, String name, Class<?>[] parameters) throws NoSuchMethodException {
        return Reflection.chosen(Reflection.declaredMethods(type), type, name, parameters);
    }

    public static Method getMethod(Class<?> type, String name, Class<?>[] parameters) throws NoSuchMethodException {
        return Reflection.chosen(Reflection.methods(type), type, name, parameters);
    }

    public static Constructor<?>[] getDeclaredConstructors(Class<?> type) {
        return Reflection.declaredConstructors(type);
    }

    public static Constructor<?>[] getConstructors(Class<?> type) {
        Constructor<?>[] all = Reflection.declaredConstructors(type);
        ArrayList<Constructor<?>> found = new ArrayList<>();
        for (Constructor<?> each : all) {
            if (Modifier.isPublic(each.getModifiers())) {
                found.add(each);
            }
        }
        return found.toArray(new Constructor<?>[0]);
    }

    public static Constructor<?> getDeclaredConstructor(Class<?> type, Class<?>[] parameters) throws NoSuchMethodException {
        return Reflection.chosen(type, parameters, true);
    }

    public static Constructor<?> getConstructor(Class<?> type, Class<?>[] parameters) throws NoSuchMethodException {
        return Reflection.chosen(type, parameters, false);
    }

    public static Field[] getDeclaredFields(Class<?> type) {
        return Reflection.declaredFields(type);
    }

    public static Field[] getFields(Class<?> type) {
        return Reflection.fields(type);
    }

    public static Field getDeclaredField(Class<?> type, String name) throws NoSuchFieldException {
        return Reflection.chosen(Reflection.declaredFields(type), name);
    }

    public static Field getField(Class<?> type, String name) throws NoSuchFieldException {
        return Reflection.chosen(Reflection.fields(type), name);
    }
}
