package jamuvelor.lib.jdk;

/** In place of a method of Short that uses the layout of the JDK's Strings. */
public final class java_lang_Short {
    private java_lang_Short() {}

    public static String toString(short number) {
        return String.valueOf((int) number);
    }
}
