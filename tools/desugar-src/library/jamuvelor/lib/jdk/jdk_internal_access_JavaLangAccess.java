package jamuvelor.lib.jdk;

/** In place of what other packages of the JDK ask of `java.lang`. */
public final class jdk_internal_access_JavaLangAccess {
    private jdk_internal_access_JavaLangAccess() {}

    public static Enum<?>[] getEnumConstantsShared(Object access, Class<?> type) {
        return (Enum<?>[]) type.getEnumConstants();
    }

    public static String fastUUID(Object access, long low, long high) {
        return digits(high >> 32, 8) + "-" + digits(high >> 16, 4) + "-" + digits(high, 4) + "-" + digits(low >> 48, 4) + "-"
                + digits(low, 12);
    }

    private static String digits(long value, int count) {
        long limit = 1L << count * 4;
        return Long.toHexString(limit | value & limit - 1).substring(1);
    }
}
