package jamuvelor.lib.jdk;

/** In place of methods of Integer: texts without the layout of JDK's Strings. */
public final class java_lang_Integer {
    private java_lang_Integer() {}

    public static String toString(int number) {
        return String.valueOf(number);
    }

    public static String toString(int number, int radix) {
        return java_lang_Long.toString((long) number, radix);
    }

    public static String toUnsignedString0(int number, int shift) {
        return java_lang_Long.toUnsignedString0(number & 0xFFFFFFFFL, shift);
    }
}
