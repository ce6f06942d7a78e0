package jamuvelor.lib.jdk;

/** In place of methods of the JDK's archive of classes, which there is none of. */
public final class jdk_internal_misc_CDS {
    private jdk_internal_misc_CDS() {}

    public static long getRandomSeedForDumping() {
        return 0;
    }

    public static void initializeFromArchive(Class<?> type) {}

    public static boolean isDumpingClassList() {
        return false;
    }
}
