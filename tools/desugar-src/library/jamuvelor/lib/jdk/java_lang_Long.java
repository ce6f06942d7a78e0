package jamuvelor.lib.jdk;

/** In place of methods of Long: texts without the layout of JDK's Strings. */
public final class java_lang_Long {
    private java_lang_Long() {}

    public static String toString(long number) {
        return String.valueOf(number);
    }

    public static String toString(long number, int radix) {
        int base = radix < Character.MIN_RADIX || radix > Character.MAX_RADIX ? 10 : radix;
        if (base == 10) {
            return String.valueOf(number);
        }
        char[] letters = new char[65];
        int at = 64;
        long rest = number < 0 ? number : -number;
        while (rest <= -base) {
            letters[at--] = digit(-(int) (rest % base));
            rest /= base;
        }
        letters[at] = digit(-(int) rest);
        if (number < 0) {
            letters[--at] = '-';
        }
        return new String(letters, at, 65 - at);
    }

    private static char digit(int digit) {
        return (char) (digit < 10 ? '0' + digit : 'a' + digit - 10);
    }

    public static String toUnsignedString0(long number, int shift) {
        char[] letters = new char[64];
        int at = 64;
        long rest = number;
        do {
            letters[--at] = digit((int) (rest & ((1 << shift) - 1)));
            rest >>>= shift;
        } while (rest != 0);
        return new String(letters, at, 64 - at);
    }
}
