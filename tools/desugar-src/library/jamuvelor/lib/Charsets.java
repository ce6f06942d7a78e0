package jamuvelor.lib;

/** The encodings of texts that every JVM has. */
public final class Charsets {
    private static final char REPLACEMENT = '\uFFFD';

    private Charsets() {}

    /** The standard name of an encoding; null where it isn't one of these. */
    public static String standardName(String name) {
        String upper = name.toUpperCase();
        switch (upper) {
            case "UTF-8":
            case "UTF8":
                return "UTF-8";
            case "US-ASCII":
            case "ASCII":
                return "US-ASCII";
            case "ISO-8859-1":
            case "ISO8859_1":
            case "ISO8859-1":
            case "LATIN1":
                return "ISO-8859-1";
            case "UTF-16":
            case "UTF-16BE":
            case "UTF-16LE":
                return upper;
            default:
                return null;
        }
    }

    public static byte[] encode(String text, String standardName) {
        switch (standardName) {
            case "UTF-8":
                return toUtf8(text);
            case "US-ASCII":
                return toBytes(text, 128);
            case "ISO-8859-1":
                return toBytes(text, 256);
            default:
                return toUtf16(text, standardName.equals("UTF-16LE"), standardName.equals("UTF-16"));
        }
    }

    public static String decode(byte[] bytes, int from, int count, String standardName) {
        if (from < 0 || count < 0 || from > bytes.length - count) {
            throw new StringIndexOutOfBoundsException("offset " + from + ", count " + count + ", length " + bytes.length);
        }
        switch (standardName) {
            case "UTF-8":
                return ofUtf8(bytes, from, from + count);
            case "US-ASCII":
                return ofBytes(bytes, from, count, 128);
            case "ISO-8859-1":
                return ofBytes(bytes, from, count, 256);
            default:
                return ofUtf16(bytes, from, count, standardName);
        }
    }

    private static byte[] toBytes(String text, int limit) {
        byte[] bytes = new byte[text.length()];
        int count = 0;
        for (int i = 0; i < text.length(); i++) {
            char letter = text.charAt(i);
            boolean pair = Character.isHighSurrogate(letter) && i + 1 < text.length() && Character.isLowSurrogate(text.charAt(i + 1));
            if (pair) {
                i++;
            }
            bytes[count++] = letter < limit ? (byte) letter : (byte) '?';
        }
        return cut(bytes, count);
    }

    private static byte[] cut(byte[] bytes, int count) {
        if (count == bytes.length) {
            return bytes;
        }
        byte[] result = new byte[count];
        for (int i = 0; i < count; i++) {
            result[i] = bytes[i];
        }
        return result;
    }

    private static String ofBytes(byte[] bytes, int from, int count, int limit) {
        char[] letters = new char[count];
        for (int i = 0; i < count; i++) {
            int unit = bytes[from + i] & 255;
            letters[i] = unit < limit ? (char) unit : REPLACEMENT;
        }
        return new String(letters);
    }

    private static byte[] toUtf16(String text, boolean little, boolean mark) {
        byte[] bytes = new byte[2 * text.length() + (mark ? 2 : 0)];
        int count = 0;
        if (mark) {
            bytes[count++] = (byte) 0xFE;
            bytes[count++] = (byte) 0xFF;
        }
        for (int i = 0; i < text.length(); i++) {
            char letter = text.charAt(i);
            bytes[count++] = (byte) (little ? letter : letter >> 8);
            bytes[count++] = (byte) (little ? letter >> 8 : letter);
        }
        return bytes;
    }

    private static String ofUtf16(byte[] bytes, int from, int count, String name) {
        boolean little = name.equals("UTF-16LE");
        int at = from;
        if (name.equals("UTF-16") && count >= 2) {
            int mark = (bytes[from] & 255) << 8 | bytes[from + 1] & 255;
            little = mark == 0xFFFE;
            at += mark == 0xFFFE || mark == 0xFEFF ? 2 : 0;
        }
        char[] letters = new char[(from + count - at) / 2];
        for (int i = 0; i < letters.length; i++) {
            int first = bytes[at++] & 255;
            int second = bytes[at++] & 255;
            letters[i] = (char) (little ? second << 8 | first : first << 8 | second);
        }
        return new String(letters);
    }

    private static byte[] toUtf8(String text) {
        byte[] bytes = new byte[3 * text.length()];
        int count = 0;
        for (int i = 0; i < text.length(); i++) {
            int point = text.codePointAt(i);
            if (point < 0x80) {
                bytes[count++] = (byte) point;
            } else if (point < 0x800) {
                bytes[count++] = (byte) (0xC0 | point >> 6);
                bytes[count++] = (byte) (0x80 | point & 63);
            } else if (point >= 0xD800 && point < 0xE000) {
                bytes[count++] = '?';
            } else if (point < 0x10000) {
                bytes[count++] = (byte) (0xE0 | point >> 12);
                bytes[count++] = (byte) (0x80 | point >> 6 & 63);
                bytes[count++] = (byte) (0x80 | point & 63);
            } else {
                i++;
                bytes[count++] = (byte) (0xF0 | point >> 18);
                bytes[count++] = (byte) (0x80 | point >> 12 & 63);
                bytes[count++] = (byte) (0x80 | point >> 6 & 63);
                bytes[count++] = (byte) (0x80 | point & 63);
            }
        }
        return cut(bytes, count);
    }

    /** Decodes UTF-8 (RFC 3629); each malformed part becomes one replacement character, as long as a whole one could begin so. */
    private static String ofUtf8(byte[] bytes, int from, int to) {
        StringBuilder text = new StringBuilder(to - from);
        int at = from;
        while (at < to) {
            int first = bytes[at] & 255;
            int more = first < 0x80 ? 0 : first < 0xC2 ? -1 : first < 0xE0 ? 1 : first < 0xF0 ? 2 : first < 0xF5 ? 3 : -1;
            if (more < 0) {
                text.append(REPLACEMENT);
                at++;
                continue;
            }
            int point = more == 0 ? first : first & (0x3F >> more);
            int read = 1;
            while (read <= more && at + read < to && continues(bytes[at + read] & 255, first, read)) {
                point = point << 6 | bytes[at + read] & 63;
                read++;
            }
            at += read;
            if (read <= more) {
                text.append(REPLACEMENT);
            } else {
                text.appendCodePoint(point);
            }
        }
        return text.toString();
    }

    private static boolean continues(int unit, int first, int place) {
        int lowest = place > 1 ? 0x80 : first == 0xE0 ? 0xA0 : first == 0xF0 ? 0x90 : 0x80;
        int highest = place > 1 ? 0xBF : first == 0xED ? 0x9F : first == 0xF4 ? 0x8F : 0xBF;
        return unit >= lowest && unit <= highest;
    }
}
