package jdk.internal.util;

/** Sizes and comparisons of arrays, without the machine's memory. */
public final class ArraysSupport {
    public static final int SOFT_MAX_ARRAY_LENGTH = Integer.MAX_VALUE - 8;

    private ArraysSupport() {}

    public static int newLength(int old, int least, int preferred) {
        int length = old + Math.max(least, preferred);
        if (0 < length && length <= SOFT_MAX_ARRAY_LENGTH) {
            return length;
        }
        int needed = old + least;
        if (needed < 0) {
            throw new OutOfMemoryError("Required array length " + old + " + " + least + " is too large");
        }
        return needed <= SOFT_MAX_ARRAY_LENGTH ? SOFT_MAX_ARRAY_LENGTH : needed;
    }

    public static int mismatch(boolean[] one, boolean[] other, int length) {
        return mismatch(one, 0, other, 0, length);
    }

    public static int mismatch(boolean[] one, int at, boolean[] other, int otherAt, int length) {
        for (int i = 0; i < length; i++) {
            if (one[at + i] != other[otherAt + i]) {
                return i;
            }
        }
        return -1;
    }

    public static int mismatch(byte[] one, byte[] other, int length) {
        return mismatch(one, 0, other, 0, length);
    }

    public static int mismatch(byte[] one, int at, byte[] other, int otherAt, int length) {
        for (int i = 0; i < length; i++) {
            if (one[at + i] != other[otherAt + i]) {
                return i;
            }
        }
        return -1;
    }

    public static int mismatch(char[] one, char[] other, int length) {
        return mismatch(one, 0, other, 0, length);
    }

    public static int mismatch(char[] one, int at, char[] other, int otherAt, int length) {
        for (int i = 0; i < length; i++) {
            if (one[at + i] != other[otherAt + i]) {
                return i;
            }
        }
        return -1;
    }

    public static int mismatch(short[] one, short[] other, int length) {
        return mismatch(one, 0, other, 0, length);
    }

    public static int mismatch(short[] one, int at, short[] other, int otherAt, int length) {
        for (int i = 0; i < length; i++) {
            if (one[at + i] != other[otherAt + i]) {
                return i;
            }
        }
        return -1;
    }

    public static int mismatch(int[] one, int[] other, int length) {
        return mismatch(one, 0, other, 0, length);
    }

    public static int mismatch(int[] one, int at, int[] other, int otherAt, int length) {
        for (int i = 0; i < length; i++) {
            if (one[at + i] != other[otherAt + i]) {
                return i;
            }
        }
        return -1;
    }

    public static int mismatch(long[] one, long[] other, int length) {
        return mismatch(one, 0, other, 0, length);
    }

    public static int mismatch(long[] one, int at, long[] other, int otherAt, int length) {
        for (int i = 0; i < length; i++) {
            if (one[at + i] != other[otherAt + i]) {
                return i;
            }
        }
        return -1;
    }

    public static int mismatch(float[] one, float[] other, int length) {
        return mismatch(one, 0, other, 0, length);
    }

    public static int mismatch(float[] one, int at, float[] other, int otherAt, int length) {
        for (int i = 0; i < length; i++) {
            if (Float.floatToIntBits(one[at + i]) != Float.floatToIntBits(other[otherAt + i])) {
                return i;
            }
        }
        return -1;
    }

    public static int mismatch(double[] one, double[] other, int length) {
        return mismatch(one, 0, other, 0, length);
    }

    public static int mismatch(double[] one, int at, double[] other, int otherAt, int length) {
        for (int i = 0; i < length; i++) {
            if (Double.doubleToLongBits(one[at + i]) != Double.doubleToLongBits(other[otherAt + i])) {
                return i;
            }
        }
        return -1;
    }
}
