package jamuvelor.lib;

/** Copies of arrays. */
public final class ArrayHelpers {
    private ArrayHelpers() {}

    /** What `clone` of an array gives. */
    public static Object copyOf(Object array) {
        Object copy = like(array);
        SystemHelpers.arraycopy(array, 0, copy, 0, java.lang.reflect.Array.getLength(copy));
        return copy;
    }

    private static Object like(Object array) {
        if (array instanceof Object[]) {
            return Tables.arrayLike((Object[]) array, ((Object[]) array).length);
        }
        if (array instanceof int[]) {
            return new int[((int[]) array).length];
        }
        if (array instanceof char[]) {
            return new char[((char[]) array).length];
        }
        if (array instanceof byte[]) {
            return new byte[((byte[]) array).length];
        }
        if (array instanceof long[]) {
            return new long[((long[]) array).length];
        }
        if (array instanceof boolean[]) {
            return new boolean[((boolean[]) array).length];
        }
        if (array instanceof short[]) {
            return new short[((short[]) array).length];
        }
        throw new NullPointerException();
    }
}
