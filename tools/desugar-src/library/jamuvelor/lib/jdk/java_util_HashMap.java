package jamuvelor.lib.jdk;

/** In place of a method of HashMap that asks for generic interfaces: classes that are comparable with themselves, of those known. */
public final class java_util_HashMap {
    private java_util_HashMap() {}

    public static Class<?> comparableClassFor(Object object) {
        boolean known = object instanceof String || object instanceof Integer || object instanceof Long || object instanceof Character
                || object instanceof Enum;
        return known && object instanceof Comparable ? object.getClass() : null;
    }
}
