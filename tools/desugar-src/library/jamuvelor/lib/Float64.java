package jamuvelor.lib;

/** An element of an array of double, so that such an array is none of long; null stands for 0. */
public final class Float64 {
    private final long bits;

    private Float64(long bits) {
        this.bits = bits;
    }

    public static long get(Float64[] array, int index) {
        Float64 element = array[index];
        return element == null ? 0 : element.bits;
    }

    public static void set(Float64[] array, int index, long bits) {
        array[index] = bits == 0 ? null : new Float64(bits);
    }
}
