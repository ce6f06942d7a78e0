package jamuvelor.lib;

import java.lang.reflect.Type;

/** Calls through Type, which may meet a class. */
public final class TypeHelpers {
    private TypeHelpers() {}

    public static String getTypeName(Type type) {
        Object object = type;
        return object instanceof String ? ClassHelpers.getTypeName((Class<?>) object) : type.getTypeName();
    }
}
