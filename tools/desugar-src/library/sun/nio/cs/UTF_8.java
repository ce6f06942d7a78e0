package sun.nio.cs;

import java.nio.charset.Charset;

/** What the JDK's own classes name their encoding by. */
public final class UTF_8 extends Charset {
    public static final UTF_8 INSTANCE = new UTF_8();

    private UTF_8() {
        super("UTF-8");
    }
}
