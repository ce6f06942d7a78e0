package java.nio.charset;

import jamuvelor.lib.Charsets;

/** One of the encodings that every JVM has. */
public class Charset implements Comparable<Charset> {
    private final String name;

    protected Charset(String name) {
        this.name = name;
    }

    public static boolean isSupported(String name) {
        check(name);
        return Charsets.standardName(name) != null;
    }

    public static Charset forName(String name) {
        check(name);
        String standard = Charsets.standardName(name);
        if (standard == null) {
            throw new UnsupportedCharsetException(name);
        }
        return new Charset(standard);
    }

    private static void check(String name) {
        if (name == null) {
            throw new IllegalArgumentException("Null charset name");
        }
        boolean legal = !name.isEmpty();
        for (int i = 0; i < name.length(); i++) {
            char letter = name.charAt(i);
            legal &= Character.isLetterOrDigit(letter) && letter < 128 || i > 0 && "-+:_.".indexOf(letter) >= 0;
        }
        if (!legal) {
            throw new IllegalCharsetNameException(name);
        }
    }

    public static Charset defaultCharset() {
        return StandardCharsets.UTF_8;
    }

    public String name() {
        return name;
    }

    public String displayName() {
        return name;
    }

    public boolean canEncode() {
        return true;
    }

    @Override
    public int compareTo(Charset other) {
        return name.compareToIgnoreCase(other.name);
    }

    @Override
    public int hashCode() {
        return name.hashCode();
    }

    @Override
    public boolean equals(Object other) {
        return other instanceof Charset && ((Charset) other).name.equals(name);
    }

    @Override
    public String toString() {
        return name;
    }
}
