package jamuvelor.lib;

/** Tables of a suite's classes: their bodies are written for what the suite reaches. A class is given by its token. */
public final class Tables {
    private Tables() {}

    /** The token of an array's class, or of a built-in throwable's. */
    public static String classOf(Object object) {
        return null;
    }

    /** A new array of the class of this one. */
    public static Object[] arrayLike(Object[] array, int length) {
        return null;
    }

    /** A new array of elements of this class. */
    public static Object newArray(String element, int length) {
        return null;
    }

    /** The constants of an enum; null for another class. */
    public static Object[] enumValues(String token) {
        return null;
    }

    public static boolean isInstance(String token, Object object) {
        return false;
    }

    /** The token of the class above; null for Object and interfaces. */
    public static String superOf(String token) {
        return null;
    }

    /** The tokens of the interfaces that the class names itself, joined by commas; null where there are none. */
    public static String interfacesOf(String token) {
        return null;
    }

    public static Object newInstance(String token) {
        return null;
    }

    /** The access flags of the class file (JVMS table 4.1-B). */
    public static int modifiers(String token) {
        return 0;
    }

    /** The token of the class of this name; null where no reached code names such a class. */
    public static String byName(String name) {
        return null;
    }

    /** The members of a class, as `Reflection` reads them; null where they aren't told. */
    public static String members(String token) {
        return null;
    }

    /** Calls a method by its line in the table of members. */
    public static Object invoke(String token, int index, Object target, Object[] arguments) {
        return null;
    }

    public static Object construct(String token, int index, Object[] arguments) {
        return null;
    }

    public static Object get(String token, int index, Object target) {
        return null;
    }

    public static void set(String token, int index, Object target, Object value) {}
}
