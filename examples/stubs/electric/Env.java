package electric;

/** What a test may call of its surroundings, to compile against; the program has these methods built in. */
public class Env {
    /** Prints the number in decimal and a line feed to the test's output. */
    public static native void print(int number);

    /** The next of the test's random numbers, which begin with the seed that the suite text gives it. */
    public static native int random();
}
