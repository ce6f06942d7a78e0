package jamuvelor.lib.jdk;

/** In place of methods of Enum that ask the machine for its classes. */
public final class java_lang_Enum {
    private java_lang_Enum() {}

    public static Enum<?> valueOf(Class<?> type, String name) {
        Object[] constants = type.getEnumConstants();
        if (name == null) {
            throw new NullPointerException("Name is null");
        }
        for (int i = 0; constants != null && i < constants.length; i++) {
            if (((Enum<?>) constants[i]).name().equals(name)) {
                return (Enum<?>) constants[i];
            }
        }
        throw new IllegalArgumentException("No enum constant " + type.getCanonicalName() + "." + name);
    }

    public static Class<?> getDeclaringClass(Enum<?> constant) {
        Class<?> type = constant.getClass();
        Class<?> above = type.getSuperclass();
        return above == Enum.class ? type : above;
    }

    public static int hashCode(Enum<?> constant) {
        return constant.name().hashCode();
    }
}
