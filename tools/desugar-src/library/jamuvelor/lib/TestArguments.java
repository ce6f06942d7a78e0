package jamuvelor.lib;

import java.util.Arrays;
import java.util.Iterator;
import java.util.stream.BaseStream;

/** What adapters of tests with arguments call: the arguments of each run, and their values. */
public final class TestArguments {
    private TestArguments() {}

    /** The elements of what a source of arguments answered. */
    public static Iterator<?> iterator(Object source) {
        if (source instanceof Iterator) {
            return (Iterator<?>) source;
        }
        if (source instanceof Iterable) {
            return ((Iterable<?>) source).iterator();
        }
        if (source instanceof Object[]) {
            return Arrays.asList((Object[]) source).iterator();
        }
        if (source instanceof int[]) {
            int[] numbers = (int[]) source;
            Object[] boxes = new Object[numbers.length];
            for (int i = 0; i < boxes.length; i++) {
                boxes[i] = numbers[i];
            }
            return Arrays.asList(boxes).iterator();
        }
        if (source instanceof BaseStream) {
            return ((BaseStream<?, ?>) source).iterator();
        }
        throw new Unserved("arguments from an array of numbers, or what isn't served itself");
    }

    /** The arguments of one run: an array as it is, and anything else as the only one. */
    public static Object[] array(Object arguments) {
        return arguments instanceof Object[] ? (Object[]) arguments : new Object[] {arguments};
    }

    public static boolean toBoolean(Object box) {
        return (Boolean) box;
    }

    public static char toCharacter(Object box) {
        return (Character) box;
    }

    public static byte toByte(Object box) {
        return (Byte) box;
    }

    public static short toShort(Object box) {
        return box instanceof Byte ? (Byte) box : (Short) box;
    }

    public static int toInteger(Object box) {
        return box instanceof Character ? (Character) box : box instanceof Integer ? (Integer) box : toShort(box);
    }

    public static long toLong(Object box) {
        return box instanceof Long ? (Long) box : toInteger(box);
    }

    public static float toFloat(Object box) {
        return box instanceof Float ? (Float) box : toLong(box);
    }

    public static double toDouble(Object box) {
        return box instanceof Double ? (Double) box : toFloat(box);
    }
}
