package jamuvelor.lib.jdk;

/** In place of a method of Boolean that reads a property. */
public final class java_lang_Boolean {
    private java_lang_Boolean() {}

    public static boolean getBoolean(String name) {
        return name != null && !name.isEmpty() && Boolean.parseBoolean(System.getProperty(name));
    }
}
