package jamuvelor.lib.jdk;

import java.lang.reflect.Field;

/** In place of what classes of the JDK ask the machine's memory for when they are initialised; there are no places in memory. */
public final class jdk_internal_misc_Unsafe {
    private jdk_internal_misc_Unsafe() {}

    public static Object getUnsafe() {
        return null;
    }

    public static long objectFieldOffset(Object unsafe, Field field) {
        return 0;
    }

    public static long objectFieldOffset(Object unsafe, Class<?> type, String field) {
        return 0;
    }

    public static int arrayBaseOffset(Object unsafe, Class<?> type) {
        return 0;
    }

    public static int arrayIndexScale(Object unsafe, Class<?> type) {
        return 1;
    }

    public static void fullFence(Object unsafe) {}

    public static void loadFence(Object unsafe) {}

    public static void storeFence(Object unsafe) {}
}
