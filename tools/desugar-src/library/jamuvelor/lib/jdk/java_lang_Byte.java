package jamuvelor.lib.jdk;

/** In place of a method of Byte that uses the layout of the JDK's Strings. */
public final class java_lang_Byte {
    private java_lang_Byte() {}

    public static String toString(byte number) {
        return String.valueOf((int) number);
    }
}
