package jamuvelor.lib;

/** Members of Object that the built-in class lacks, and questions about types that String has in Java. */
public final class ObjectHelpers {
    private ObjectHelpers() {}

    public static String toString(Object object) {
        if (object instanceof String) {
            return (String) object;
        }
        if (object instanceof Instance) {
            return ((Instance) object).toString();
        }
        if (object == null) {
            throw new NullPointerException();
        }
        if (object instanceof Throwable) {
            return ThrowableHelpers.superToString((Throwable) object);
        }
        return superToString(object);
    }

    /** `Object.toString` itself. */
    public static String superToString(Object object) {
        return ClassHelpers.nameOf(token(object)).concat("@").concat(Integer.toHexString(object.hashCode()));
    }

    public static Class<?> getClass(Object object) {
        return (Class<?>) (Object) token(object);
    }

    /** The class token of an object. */
    public static String token(Object object) {
        if (object instanceof Instance) {
            return ((Instance) object).$class();
        }
        if (object instanceof String) {
            return isClass(object) ? "class java.lang.Class" : "class java.lang.String";
        }
        if (object == null) {
            throw new NullPointerException();
        }
        return Tables.classOf(object);
    }

    public static boolean isArray(Object object) {
        return object instanceof Object[] || object instanceof int[] || object instanceof char[] || object instanceof byte[]
                || object instanceof long[] || object instanceof boolean[] || object instanceof short[];
    }

    /** Whether it is an array of objects in Java: arrays of float and double are ones here. */
    public static boolean isObjectArray(Object object) {
        return object instanceof Object[] && !(object instanceof float[]) && !(object instanceof double[]);
    }

    /** Whether a String is a class token. */
    public static boolean isClass(Object object) {
        return object instanceof String && ClassHelpers.isToken((String) object);
    }

    /** Whether an object is a String that isn't a class token. */
    public static boolean isText(Object object) {
        return object instanceof String && !ClassHelpers.isToken((String) object);
    }

    public static boolean isComparable(Object object) {
        return object instanceof Comparable || isText(object);
    }

    public static boolean isCharSequence(Object object) {
        return object instanceof CharSequence || isText(object);
    }

    public static boolean isSerializable(Object object) {
        return object instanceof java.io.Serializable || object instanceof String || object instanceof Throwable || isArray(object);
    }

    public static boolean isCloneable(Object object) {
        return object instanceof Cloneable || isArray(object);
    }

    public static boolean isType(Object object) {
        return object instanceof java.lang.reflect.Type || isClass(object);
    }

    public static ClassCastException noCast(Object object, String name) {
        return new ClassCastException("class " + ClassHelpers.nameOf(token(object)) + " cannot be cast to class " + name);
    }

    public static void asComparable(Object object) {
        if (object != null && !isComparable(object)) {
            throw noCast(object, "java.lang.Comparable");
        }
    }

    public static void asCharSequence(Object object) {
        if (object != null && !isCharSequence(object)) {
            throw noCast(object, "java.lang.CharSequence");
        }
    }

    public static void asSerializable(Object object) {
        if (object != null && !isSerializable(object)) {
            throw noCast(object, "java.io.Serializable");
        }
    }

    public static void asCloneable(Object object) {
        if (object != null && !isCloneable(object)) {
            throw noCast(object, "java.lang.Cloneable");
        }
    }

    public static void asType(Object object) {
        if (object != null && !isType(object)) {
            throw noCast(object, "java.lang.reflect.Type");
        }
    }

    public static void notify(Object object) {}

    public static void notifyAll(Object object) {}
}
