package jamuvelor.lib;

/** Members of System that the built-in class lacks, and its standard properties. */
public final class SystemHelpers {
    private SystemHelpers() {}

    public static void arraycopy(Object from, int start, Object to, int place, int count) {
        if (from == null || to == null) {
            throw new NullPointerException();
        }
        if (from instanceof Object[] && to instanceof Object[]) {
            copy((Object[]) from, start, (Object[]) to, place, count);
        } else if (from instanceof char[] && to instanceof char[]) {
            copy((char[]) from, start, (char[]) to, place, count);
        } else if (from instanceof byte[] && to instanceof byte[]) {
            copy((byte[]) from, start, (byte[]) to, place, count);
        } else if (from instanceof int[] && to instanceof int[]) {
            copy((int[]) from, start, (int[]) to, place, count);
        } else if (from instanceof long[] && to instanceof long[]) {
            copy((long[]) from, start, (long[]) to, place, count);
        } else if (from instanceof short[] && to instanceof short[]) {
            copy((short[]) from, start, (short[]) to, place, count);
        } else if (from instanceof boolean[] && to instanceof boolean[]) {
            copy((boolean[]) from, start, (boolean[]) to, place, count);
        } else {
            throw new ArrayStoreException("arraycopy: type mismatch: can not copy one array into another");
        }
    }

    private static void check(int start, int place, int count, int length, int room) {
        if (start < 0 || place < 0 || count < 0 || start > length - count || place > room - count) {
            throw new ArrayIndexOutOfBoundsException(message(start, place, count, length, room));
        }
    }

    private static String message(int start, int place, int count, int length, int room) {
        if (count < 0) {
            return "arraycopy: length " + count + " is negative";
        }
        if (start < 0 || start > length - count) {
            return start < 0 ? "arraycopy: source index " + start + " out of bounds for length " + length
                    : "arraycopy: last source index " + (start + count) + " out of bounds for length " + length;
        }
        return place < 0 ? "arraycopy: destination index " + place + " out of bounds for length " + room
                : "arraycopy: last destination index " + (place + count) + " out of bounds for length " + room;
    }

    private static void copy(Object[] from, int start, Object[] to, int place, int count) {
        check(start, place, count, from.length, to.length);
        if (from == to && start < place) {
            for (int i = count - 1; i >= 0; i--) {
                to[place + i] = from[start + i];
            }
        } else {
            for (int i = 0; i < count; i++) {
                to[place + i] = from[start + i];
            }
        }
    }

    private static void copy(char[] from, int start, char[] to, int place, int count) {
        check(start, place, count, from.length, to.length);
        if (from == to && start < place) {
            for (int i = count - 1; i >= 0; i--) {
                to[place + i] = from[start + i];
            }
        } else {
            for (int i = 0; i < count; i++) {
                to[place + i] = from[start + i];
            }
        }
    }

    private static void copy(byte[] from, int start, byte[] to, int place, int count) {
        check(start, place, count, from.length, to.length);
        if (from == to && start < place) {
            for (int i = count - 1; i >= 0; i--) {
                to[place + i] = from[start + i];
            }
        } else {
            for (int i = 0; i < count; i++) {
                to[place + i] = from[start + i];
            }
        }
    }

    private static void copy(int[] from, int start, int[] to, int place, int count) {
        check(start, place, count, from.length, to.length);
        if (from == to && start < place) {
            for (int i = count - 1; i >= 0; i--) {
                to[place + i] = from[start + i];
            }
        } else {
            for (int i = 0; i < count; i++) {
                to[place + i] = from[start + i];
            }
        }
    }

    private static void copy(long[] from, int start, long[] to, int place, int count) {
        check(start, place, count, from.length, to.length);
        if (from == to && start < place) {
            for (int i = count - 1; i >= 0; i--) {
                to[place + i] = from[start + i];
            }
        } else {
            for (int i = 0; i < count; i++) {
                to[place + i] = from[start + i];
            }
        }
    }

    private static void copy(short[] from, int start, short[] to, int place, int count) {
        check(start, place, count, from.length, to.length);
        if (from == to && start < place) {
            for (int i = count - 1; i >= 0; i--) {
                to[place + i] = from[start + i];
            }
        } else {
            for (int i = 0; i < count; i++) {
                to[place + i] = from[start + i];
            }
        }
    }

    private static void copy(boolean[] from, int start, boolean[] to, int place, int count) {
        check(start, place, count, from.length, to.length);
        if (from == to && start < place) {
            for (int i = count - 1; i >= 0; i--) {
                to[place + i] = from[start + i];
            }
        } else {
            for (int i = 0; i < count; i++) {
                to[place + i] = from[start + i];
            }
        }
    }

    public static int identityHashCode(Object object) {
        return 0;
    }

    public static String lineSeparator() {
        return "\n";
    }

    public static String getProperty(String name) {
        String value = System.getProperty(name);
        return value == null && name != null ? standard(name) : value;
    }

    public static String getProperty(String name, String other) {
        String value = getProperty(name);
        return value == null ? other : value;
    }

    /** The properties that every JVM has, as a Java 8 on a plain Linux gives them. */
    private static String standard(String name) {
        switch (name) {
            case "java.version":
                return "1.8.0_402";
            case "java.specification.version":
            case "java.vm.specification.version":
                return "1.8";
            case "java.class.version":
                return "52.0";
            case "java.vendor":
            case "java.vm.vendor":
                return "Jamuvelor";
            case "java.vendor.url":
                return "https://example.org/";
            case "java.vm.name":
            case "java.runtime.name":
                return "electric";
            case "java.runtime.version":
                return "1.8.0_402-b06";
            case "java.vm.info":
                return "interpreted mode";
            case "java.vm.version":
                return "25.402-b06";
            case "java.specification.name":
                return "Java Platform API Specification";
            case "java.specification.vendor":
            case "java.vm.specification.vendor":
                return "Oracle Corporation";
            case "java.vm.specification.name":
                return "Java Virtual Machine Specification";
            case "java.home":
                return "/jre";
            case "java.class.path":
            case "java.library.path":
                return "";
            case "java.io.tmpdir":
                return "/tmp";
            case "java.awt.headless":
                return "true";
            case "line.separator":
                return "\n";
            case "file.separator":
                return "/";
            case "path.separator":
                return ":";
            case "file.encoding":
                return "UTF-8";
            case "os.name":
                return "Linux";
            case "os.arch":
                return "amd64";
            case "os.version":
                return "6.1";
            case "user.dir":
                return "/suite";
            case "user.home":
                return "/root";
            case "user.name":
                return "root";
            case "user.country":
                return "US";
            case "user.language":
                return "en";
            default:
                return null;
        }
    }

    public static void setOut(java.io.PrintStream stream) {
        Streams.out = (PrintStream) (Object) stream;
    }

    public static void setErr(java.io.PrintStream stream) {
        Streams.err = (PrintStream) (Object) stream;
    }

    public static String getenv(String name) {
        return null;
    }

    public static long nanoTime() {
        return System.currentTimeMillis() * 1000000L;
    }

    public static void gc() {}

    public static SecurityManager getSecurityManager() {
        return null;
    }
}
