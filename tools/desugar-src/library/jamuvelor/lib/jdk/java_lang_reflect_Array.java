package jamuvelor.lib.jdk;

import jamuvelor.lib.Tables;

/** In place of the methods of `java.lang.reflect.Array`. */
public final class java_lang_reflect_Array {
    private java_lang_reflect_Array() {}

    public static Object newInstance(Class<?> element, int length) {
        if (element == null) {
            throw new NullPointerException();
        }
        if (length < 0) {
            throw new NegativeArraySizeException(String.valueOf(length));
        }
        return Tables.newArray((String) (Object) element, length);
    }

    public static int getLength(Object array) {
        if (array instanceof float[]) {
            return ((float[]) array).length;
        }
        if (array instanceof double[]) {
            return ((double[]) array).length;
        }
        if (array instanceof Object[]) {
            return ((Object[]) array).length;
        }
        if (array instanceof int[]) {
            return ((int[]) array).length;
        }
        if (array instanceof char[]) {
            return ((char[]) array).length;
        }
        if (array instanceof byte[]) {
            return ((byte[]) array).length;
        }
        if (array instanceof long[]) {
            return ((long[]) array).length;
        }
        if (array instanceof short[]) {
            return ((short[]) array).length;
        }
        if (array instanceof boolean[]) {
            return ((boolean[]) array).length;
        }
        throw noArray(array);
    }

    private static RuntimeException noArray(Object array) {
        return array == null ? new NullPointerException() : new IllegalArgumentException("Argument is not an array");
    }

    public static Object get(Object array, int index) {
        if (array instanceof Object[]) {
            return ((Object[]) array)[index];
        }
        if (array instanceof float[]) {
            return Float.valueOf(((float[]) array)[index]);
        }
        if (array instanceof double[]) {
            return Double.valueOf(((double[]) array)[index]);
        }
        if (array instanceof int[]) {
            return Integer.valueOf(((int[]) array)[index]);
        }
        if (array instanceof char[]) {
            return Character.valueOf(((char[]) array)[index]);
        }
        if (array instanceof byte[]) {
            return Byte.valueOf(((byte[]) array)[index]);
        }
        if (array instanceof long[]) {
            return Long.valueOf(((long[]) array)[index]);
        }
        if (array instanceof short[]) {
            return Short.valueOf(((short[]) array)[index]);
        }
        if (array instanceof boolean[]) {
            return Boolean.valueOf(((boolean[]) array)[index]);
        }
        throw noArray(array);
    }

    public static void set(Object array, int index, Object value) {
        if (array instanceof Object[]) {
            ((Object[]) array)[index] = value;
        } else if (array instanceof float[]) {
            ((float[]) array)[index] = ((Number) value).floatValue();
        } else if (array instanceof double[]) {
            ((double[]) array)[index] = ((Number) value).doubleValue();
        } else if (array instanceof int[]) {
            ((int[]) array)[index] = ((Number) value).intValue();
        } else if (array instanceof char[]) {
            ((char[]) array)[index] = ((Character) value).charValue();
        } else if (array instanceof byte[]) {
            ((byte[]) array)[index] = ((Number) value).byteValue();
        } else if (array instanceof long[]) {
            ((long[]) array)[index] = ((Number) value).longValue();
        } else if (array instanceof short[]) {
            ((short[]) array)[index] = ((Number) value).shortValue();
        } else if (array instanceof boolean[]) {
            ((boolean[]) array)[index] = ((Boolean) value).booleanValue();
        } else {
            throw noArray(array);
        }
    }
}
