package sun.nio.cs;

import java.nio.charset.Charset;

/** What the JDK's own classes name their encoding by. */
public final class US_ASCII extends Charset {
    public static final US_ASCII INSTANCE = new US_ASCII();

    private US_ASCII() {
        super("US-ASCII");
    }
}
