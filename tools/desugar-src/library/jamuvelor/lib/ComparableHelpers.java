package jamuvelor.lib;

/** Calls through Comparable, which may meet a String. */
public final class ComparableHelpers {
    private ComparableHelpers() {}

    @SuppressWarnings({"unchecked", "rawtypes"})
    public static int compareTo(Comparable one, Object other) {
        Object object = one;
        if (object instanceof String) {
            return StringHelpers.compareTo((String) object, (String) other);
        }
        if (object instanceof Comparable) {
            return one.compareTo(other);
        }
        if (object == null) {
            throw new NullPointerException();
        }
        throw ObjectHelpers.noCast(object, "java.lang.Comparable");
    }
}
