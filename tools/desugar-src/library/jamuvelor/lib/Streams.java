package jamuvelor.lib;

import jamuvelor.lib.raw.Output;
import java.io.OutputStream;

/** What System's streams are: both write to the test's output, until they are set. */
public final class Streams {
    public static PrintStream out = new Console();
    public static PrintStream err = out;

    private Streams() {}

    private static final class Console extends PrintStream {
        Console() {
            super(new Bytes());
        }

        @Override
        public void print(String text) {
            Output.print(text == null ? "null" : text);
        }

        @Override
        public void println(String text) {
            Output.println(text == null ? "null" : text);
        }
    }

    /** Bytes that are written as such: those of ASCII alone come out as they are. */
    private static final class Bytes extends OutputStream {
        @Override
        public void write(int letter) {
            Output.print(String.valueOf((char) (letter & 127)));
        }
    }
}
