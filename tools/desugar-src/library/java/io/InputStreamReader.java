package java.io;

import jamuvelor.lib.Charsets;
import java.nio.charset.Charset;

/** Characters of a stream of bytes in one of the standard encodings. The stream is read to its end when the first one is asked for. */
public class InputStreamReader extends Reader {
    private InputStream stream;
    private final String encoding;
    private String text;
    private int at;

    public InputStreamReader(InputStream stream) {
        this(stream, Charset.defaultCharset());
    }

    public InputStreamReader(InputStream stream, String encoding) throws UnsupportedEncodingException {
        super(stream);
        this.stream = stream;
        if (encoding == null) {
            throw new NullPointerException("charsetName");
        }
        this.encoding = Charsets.standardName(encoding);
        if (this.encoding == null) {
            throw new UnsupportedEncodingException(encoding);
        }
    }

    public InputStreamReader(InputStream stream, Charset encoding) {
        super(stream);
        this.stream = stream;
        this.encoding = encoding.name();
    }

    public String getEncoding() {
        return stream == null ? null : encoding.equals("UTF-8") ? "UTF8" : encoding;
    }

    private void fill() throws IOException {
        if (stream == null) {
            throw new IOException("Stream closed");
        }
        if (text == null) {
            ByteArrayOutputStream bytes = new ByteArrayOutputStream();
            byte[] part = new byte[1024];
            for (int count = stream.read(part); count >= 0; count = stream.read(part)) {
                bytes.write(part, 0, count);
            }
            text = Charsets.decode(bytes.toByteArray(), 0, bytes.size(), encoding);
        }
    }

    @Override
    public int read() throws IOException {
        fill();
        return at < text.length() ? text.charAt(at++) : -1;
    }

    @Override
    public int read(char[] into, int from, int count) throws IOException {
        fill();
        if (from < 0 || count < 0 || from > into.length - count) {
            throw new IndexOutOfBoundsException();
        }
        if (count == 0) {
            return 0;
        }
        int given = Math.min(count, text.length() - at);
        if (given == 0) {
            return -1;
        }
        text.getChars(at, at + given, into, from);
        at += given;
        return given;
    }

    @Override
    public boolean ready() throws IOException {
        fill();
        return at < text.length();
    }

    @Override
    public void close() throws IOException {
        if (stream != null) {
            stream.close();
            stream = null;
        }
    }
}
