package jamuvelor.lib;

import java.io.FilterOutputStream;
import java.io.IOException;
import java.io.OutputStream;
import java.io.UnsupportedEncodingException;
import java.nio.charset.Charset;

/** PrintStream: it writes texts to a stream of bytes, and keeps failures to itself. */
public class PrintStream extends FilterOutputStream implements Appendable {
    private final String encoding;
    private boolean failed;
    private boolean isClosed;

    public PrintStream(OutputStream stream) {
        this(stream, false);
    }

    public PrintStream(OutputStream stream, boolean flushes) {
        super(checked(stream));
        this.encoding = "UTF-8";
    }

    public PrintStream(OutputStream stream, boolean flushes, String encoding) throws UnsupportedEncodingException {
        super(checked(stream));
        this.encoding = Charsets.standardName(encoding);
        if (this.encoding == null) {
            throw new UnsupportedEncodingException(encoding);
        }
    }

    public PrintStream(OutputStream stream, boolean flushes, Charset encoding) {
        super(checked(stream));
        this.encoding = encoding.name();
    }

    private static OutputStream checked(OutputStream stream) {
        if (stream == null) {
            throw new NullPointerException("Null output stream");
        }
        return stream;
    }

    @Override
    public void flush() {
        try {
            out.flush();
        } catch (IOException failure) {
            failed = true;
        }
    }

    @Override
    public void close() {
        if (!isClosed) {
            isClosed = true;
            try {
                out.close();
            } catch (IOException failure) {
                failed = true;
            }
        }
    }

    public boolean checkError() {
        return failed;
    }

    protected void setError() {
        failed = true;
    }

    protected void clearError() {
        failed = false;
    }

    @Override
    public void write(int letter) {
        try {
            out.write(letter);
        } catch (IOException failure) {
            failed = true;
        }
    }

    @Override
    public void write(byte[] bytes) throws IOException {
        write(bytes, 0, bytes.length);
    }

    @Override
    public void write(byte[] bytes, int from, int count) {
        try {
            out.write(bytes, from, count);
        } catch (IOException failure) {
            failed = true;
        }
    }

    public void print(String text) {
        if (isClosed) {
            failed = true;
            return;
        }
        byte[] bytes = Charsets.encode(text == null ? "null" : text, encoding);
        write(bytes, 0, bytes.length);
    }

    public void print(Object object) {
        print(String.valueOf(object));
    }

    public void print(char[] text) {
        print(String.valueOf(text));
    }

    public void print(char letter) {
        print(String.valueOf(letter));
    }

    public void print(boolean flag) {
        print(String.valueOf(flag));
    }

    public void print(int number) {
        print(String.valueOf(number));
    }

    public void print(long number) {
        print(String.valueOf(number));
    }

    public void print(float number) {
        print(String.valueOf(number));
    }

    public void print(double number) {
        print(String.valueOf(number));
    }

    public void println() {
        print("\n");
    }

    public void println(String text) {
        print(text == null ? "null\n" : text.concat("\n"));
    }

    public void println(Object object) {
        println(String.valueOf(object));
    }

    public void println(char[] text) {
        println(String.valueOf(text));
    }

    public void println(char letter) {
        println(String.valueOf(letter));
    }

    public void println(boolean flag) {
        println(String.valueOf(flag));
    }

    public void println(int number) {
        println(String.valueOf(number));
    }

    public void println(long number) {
        println(String.valueOf(number));
    }

    public void println(float number) {
        println(String.valueOf(number));
    }

    public void println(double number) {
        println(String.valueOf(number));
    }

    public PrintStream printf(String format, Object[] arguments) {
        print(String.format(format, arguments));
        return this;
    }

    public PrintStream printf(java.util.Locale locale, String format, Object[] arguments) {
        print(String.format(locale, format, arguments));
        return this;
    }

    public PrintStream format(String format, Object[] arguments) {
        return printf(format, arguments);
    }

    @Override
    public PrintStream append(CharSequence text) {
        print(String.valueOf(text));
        return this;
    }

    @Override
    public PrintStream append(CharSequence text, int from, int to) {
        print(String.valueOf(text).substring(from, to));
        return this;
    }

    @Override
    public PrintStream append(char letter) {
        print(letter);
        return this;
    }
}
