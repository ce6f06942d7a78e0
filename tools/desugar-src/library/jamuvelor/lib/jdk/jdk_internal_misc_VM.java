package jamuvelor.lib.jdk;

/** In place of questions to the virtual machine. */
public final class jdk_internal_misc_VM {
    private jdk_internal_misc_VM() {}

    public static String getSavedProperty(String name) {
        return null;
    }

    public static boolean isBooted() {
        return true;
    }

    public static boolean initLevel(int level) {
        return true;
    }
}
