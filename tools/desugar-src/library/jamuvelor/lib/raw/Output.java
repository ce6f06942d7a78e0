package jamuvelor.lib.raw;

/** The program's one output; this class is left as javac made it. */
public final class Output {
    private Output() {}

    public static void print(String text) {
        System.out.print(text);
    }

    public static void println(String text) {
        System.out.println(text);
    }
}
