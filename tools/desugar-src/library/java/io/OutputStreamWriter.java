package java.io;

import jamuvelor.lib.Charsets;
import java.nio.charset.Charset;

/** Writes characters to a stream of bytes in one of the standard encodings; what is written waits for a flush. */
public class OutputStreamWriter extends Writer {
    private final OutputStream stream;
    private final String encoding;
    private final StringBuilder waiting = new StringBuilder();
    private boolean isClosed;
    private boolean hasWritten;

    public OutputStreamWriter(OutputStream stream) {
        this(stream, Charset.defaultCharset());
    }

    public OutputStreamWriter(OutputStream stream, String encoding) throws UnsupportedEncodingException {
        super(stream);
        if (encoding == null) {
            throw new NullPointerException("charsetName");
        }
        this.stream = stream;
        this.encoding = Charsets.standardName(encoding);
        if (this.encoding == null) {
            throw new UnsupportedEncodingException(encoding);
        }
    }

    public OutputStreamWriter(OutputStream stream, Charset encoding) {
        super(stream);
        this.stream = stream;
        this.encoding = encoding.name();
    }

    public String getEncoding() {
        return isClosed ? null : encoding.equals("UTF-8") ? "UTF8" : encoding;
    }

    private void check() throws IOException {
        if (isClosed) {
            throw new IOException("Stream closed");
        }
    }

    @Override
    public void write(int letter) throws IOException {
        check();
        waiting.append((char) letter);
    }

    @Override
    public void write(char[] letters, int from, int count) throws IOException {
        check();
        waiting.append(letters, from, count);
    }

    @Override
    public void write(String text, int from, int count) throws IOException {
        check();
        waiting.append(text, from, from + count);
    }

    private void send() throws IOException {
        if (waiting.length() > 0) {
            String name = encoding.equals("UTF-16") && hasWritten ? "UTF-16BE" : encoding;
            stream.write(Charsets.encode(waiting.toString(), name));
            waiting.setLength(0);
            hasWritten = true;
        }
    }

    @Override
    public void flush() throws IOException {
        check();
        send();
        stream.flush();
    }

    @Override
    public void close() throws IOException {
        if (!isClosed) {
            send();
            isClosed = true;
            stream.close();
        }
    }
}
