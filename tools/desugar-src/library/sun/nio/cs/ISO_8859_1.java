package sun.nio.cs;

import java.nio.charset.Charset;

/** What the JDK's own classes name their encoding by. */
public final class ISO_8859_1 extends Charset {
    public static final ISO_8859_1 INSTANCE = new ISO_8859_1();

    private ISO_8859_1() {
        super("ISO-8859-1");
    }
}
