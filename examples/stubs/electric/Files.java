package electric;

/** Text files of a run, to compile against; the program has these methods built in. They live in memory alone. */
public class Files {
    /** The text of a file, null where there is none. */
    public static native String read(String name);

    public static native void write(String name, String text);

    /** Adds to the end of a file; one that isn't there begins empty. */
    public static native void append(String name, String text);

    /** Takes a file away, and answers whether it was there. */
    public static native boolean delete(String name);

    public static native boolean exists(String name);
}
