package jamuvelor.lib;

/** An element of an array of float, so that such an array is none of int; null stands for 0. */
public final class Float32 {
    private final int bits;

    private Float32(int bits) {
        this.bits = bits;
    }

    public static int get(Float32[] array, int index) {
        Float32 element = array[index];
        return element == null ? 0 : element.bits;
    }

    public static void set(Float32[] array, int index, int bits) {
        array[index] = bits == 0 ? null : new Float32(bits);
    }
}
