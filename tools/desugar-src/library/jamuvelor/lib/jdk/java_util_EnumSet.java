package jamuvelor.lib.jdk;

/** In place of a method of EnumSet that asks the machine for an enum's constants. */
public final class java_util_EnumSet {
    private java_util_EnumSet() {}

    public static Enum<?>[] getUniverse(Class<?> type) {
        return (Enum<?>[]) type.getEnumConstants();
    }
}
