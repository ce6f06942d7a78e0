package jamuvelor.lib.jdk;

/** In place of a method of EnumMap that asks the machine for an enum's constants. */
public final class java_util_EnumMap {
    private java_util_EnumMap() {}

    public static Enum<?>[] getKeyUniverse(Class<?> type) {
        return (Enum<?>[]) type.getEnumConstants();
    }
}
