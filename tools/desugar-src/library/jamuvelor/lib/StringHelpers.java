package jamuvelor.lib;

import jamuvelor.lib.raw.Strings;
import java.io.UnsupportedEncodingException;
import java.nio.charset.Charset;
import java.util.ArrayList;
import java.util.Comparator;
import java.util.Locale;
import java.util.regex.Pattern;
import java.util.stream.IntStream;

/** Members of String that the built-in class lacks, as static methods; its constructors are `make`. */
public final class StringHelpers {
    public static final Comparator<String> CASE_INSENSITIVE_ORDER = new WithoutCase();

    private StringHelpers() {}

    private static final class WithoutCase implements Comparator<String> {
        @Override
        public int compare(String one, String other) {
            return compareToIgnoreCase(one, other);
        }
    }

    public static String make() {
        return "";
    }

    public static String make(String text) {
        return Strings.copy(text);
    }

    public static String make(char[] letters) {
        return Strings.make(letters, 0, letters.length);
    }

    public static String make(char[] letters, int from, int count) {
        return Strings.make(letters, from, count);
    }

    public static String make(StringBuilder text) {
        return text.toString();
    }

    public static String make(StringBuffer text) {
        return text.toString();
    }

    public static String make(int[] points, int from, int count) {
        StringBuilder text = new StringBuilder();
        for (int i = 0; i < count; i++) {
            text.appendCodePoint(points[from + i]);
        }
        return text.toString();
    }

    public static String make(byte[] bytes) {
        return Charsets.decode(bytes, 0, bytes.length, "UTF-8");
    }

    public static String make(byte[] bytes, int from, int count) {
        return Charsets.decode(bytes, from, count, "UTF-8");
    }

    public static String make(byte[] bytes, String encoding) throws UnsupportedEncodingException {
        return Charsets.decode(bytes, 0, bytes.length, standardName(encoding));
    }

    public static String make(byte[] bytes, int from, int count, String encoding) throws UnsupportedEncodingException {
        return Charsets.decode(bytes, from, count, standardName(encoding));
    }

    public static String make(byte[] bytes, Charset encoding) {
        return Charsets.decode(bytes, 0, bytes.length, encoding.name());
    }

    public static String make(byte[] bytes, int from, int count, Charset encoding) {
        return Charsets.decode(bytes, from, count, encoding.name());
    }

    /** Characters of bytes below a high byte. */
    public static String make(byte[] bytes, int high, int from, int count) {
        char[] letters = new char[count];
        for (int i = 0; i < count; i++) {
            letters[i] = (char) (high << 8 | bytes[from + i] & 255);
        }
        return make(letters);
    }

    public static String make(byte[] bytes, int high) {
        return make(bytes, high, 0, bytes.length);
    }

    private static String standardName(String encoding) throws UnsupportedEncodingException {
        String name = Charsets.standardName(encoding);
        if (name == null) {
            throw new UnsupportedEncodingException(encoding);
        }
        return name;
    }

    public static byte[] getBytes(String text) {
        return Charsets.encode(text, "UTF-8");
    }

    public static byte[] getBytes(String text, String encoding) throws UnsupportedEncodingException {
        return Charsets.encode(text, standardName(encoding));
    }

    public static byte[] getBytes(String text, Charset encoding) {
        return Charsets.encode(text, encoding.name());
    }

    public static int indexOf(String text, int letter) {
        return indexOf(text, letter, 0);
    }

    public static int indexOf(String text, int letter, int from) {
        if (letter >= 0x10000) {
            return indexOf(text, make(Character.toChars(letter)), from);
        }
        int length = text.length();
        for (int i = from < 0 ? 0 : from; i < length; i++) {
            if (text.charAt(i) == letter) {
                return i;
            }
        }
        return -1;
    }

    public static int lastIndexOf(String text, int letter) {
        return lastIndexOf(text, letter, text.length() - 1);
    }

    public static int lastIndexOf(String text, int letter, int from) {
        if (letter >= 0x10000) {
            return lastIndexOf(text, make(Character.toChars(letter)), from);
        }
        int last = text.length() - 1;
        for (int i = from > last ? last : from; i >= 0; i--) {
            if (text.charAt(i) == letter) {
                return i;
            }
        }
        return -1;
    }

    public static int indexOf(String text, String part) {
        return indexOf(text, part, 0);
    }

    public static int indexOf(String text, String part, int from) {
        int length = text.length();
        int last = length - part.length();
        int start = from < 0 ? 0 : from > length ? length : from;
        if (part.isEmpty()) {
            return start;
        }
        char first = part.charAt(0);
        for (int i = start; i <= last; i++) {
            if (text.charAt(i) == first && isAt(text, part, i)) {
                return i;
            }
        }
        return -1;
    }

    private static boolean isAt(String text, String part, int at) {
        int length = part.length();
        if (at < 0 || at > text.length() - length) {
            return false;
        }
        for (int i = 0; i < length; i++) {
            if (text.charAt(at + i) != part.charAt(i)) {
                return false;
            }
        }
        return true;
    }

    public static int lastIndexOf(String text, String part) {
        return lastIndexOf(text, part, text.length());
    }

    public static int lastIndexOf(String text, String part, int from) {
        int last = text.length() - part.length();
        for (int i = from < last ? from : last; i >= 0; i--) {
            if (isAt(text, part, i)) {
                return i;
            }
        }
        return -1;
    }

    public static boolean contains(String text, CharSequence part) {
        return indexOf(text, ObjectHelpers.toString(part), 0) >= 0;
    }

    public static boolean startsWith(String text, String part) {
        return isAt(text, part, 0);
    }

    public static boolean startsWith(String text, String part, int at) {
        return isAt(text, part, at);
    }

    public static boolean endsWith(String text, String part) {
        return isAt(text, part, text.length() - part.length());
    }

    public static String trim(String text) {
        int from = 0;
        int to = text.length();
        while (from < to && text.charAt(from) <= ' ') {
            from++;
        }
        while (from < to && text.charAt(to - 1) <= ' ') {
            to--;
        }
        return text.substring(from, to);
    }

    public static String strip(String text) {
        return stripLeading(stripTrailing(text));
    }

    public static String stripLeading(String text) {
        int from = 0;
        while (from < text.length() && Character.isWhitespace(text.charAt(from))) {
            from++;
        }
        return text.substring(from);
    }

    public static String stripTrailing(String text) {
        int to = text.length();
        while (to > 0 && Character.isWhitespace(text.charAt(to - 1))) {
            to--;
        }
        return text.substring(0, to);
    }

    public static boolean isBlank(String text) {
        return stripLeading(text).isEmpty();
    }

    public static String repeat(String text, int times) {
        if (times < 0) {
            throw new IllegalArgumentException("count is negative: " + times);
        }
        StringBuilder all = new StringBuilder(text.length() * times);
        for (int i = 0; i < times; i++) {
            all.append(text);
        }
        return all.toString();
    }

    public static String toLowerCase(String text) {
        int length = text.length();
        StringBuilder lower = new StringBuilder(length);
        boolean changed = false;
        for (int i = 0; i < length; i++) {
            int point = codePointAt(text, i);
            i += point >= 0x10000 ? 1 : 0;
            int made = Character.toLowerCase(point);
            changed |= made != point;
            if (point == 0x130) {
                lower.append("i\u0307");
                changed = true;
            } else if (point == 0x3A3 && i == length - 1 && i > 0 && Character.isLetter(text.charAt(i - 1))) {
                lower.append('\u03C2');
                changed = true;
            } else {
                lower.appendCodePoint(made);
            }
        }
        return changed ? lower.toString() : text;
    }

    public static String toUpperCase(String text) {
        int length = text.length();
        StringBuilder upper = new StringBuilder(length);
        boolean changed = false;
        for (int i = 0; i < length; i++) {
            int point = codePointAt(text, i);
            i += point >= 0x10000 ? 1 : 0;
            if (point == 0xDF) {
                upper.append("SS");
                changed = true;
                continue;
            }
            int made = Character.toUpperCase(point);
            changed |= made != point;
            upper.appendCodePoint(made);
        }
        return changed ? upper.toString() : text;
    }

    public static String toLowerCase(String text, Locale locale) {
        String language = locale.getLanguage();
        if (language.equals("tr") || language.equals("az")) {
            return toLowerCase(replace(replace(text, 'I', '\u0131'), '\u0130', 'i'));
        }
        return toLowerCase(text);
    }

    public static String toUpperCase(String text, Locale locale) {
        String language = locale.getLanguage();
        if (language.equals("tr") || language.equals("az")) {
            return toUpperCase(replace(replace(text, 'i', '\u0130'), '\u0131', 'I'));
        }
        return toUpperCase(text);
    }

    public static String replace(String text, char from, char to) {
        if (from == to || indexOf(text, from, 0) < 0) {
            return text;
        }
        char[] letters = toCharArray(text);
        for (int i = 0; i < letters.length; i++) {
            if (letters[i] == from) {
                letters[i] = to;
            }
        }
        return make(letters);
    }

    public static String replace(String text, CharSequence from, CharSequence to) {
        String part = ObjectHelpers.toString(from);
        String other = ObjectHelpers.toString(to);
        if (part.isEmpty()) {
            return between(text, other);
        }
        int found = indexOf(text, part, 0);
        if (found < 0) {
            return text;
        }
        StringBuilder made = new StringBuilder();
        int at = 0;
        while (found >= 0) {
            made.append(text.substring(at, found)).append(other);
            at = found + part.length();
            found = indexOf(text, part, at);
        }
        return made.append(text.substring(at)).toString();
    }

    /** The text with another one before each of its characters and behind the last one. */
    private static String between(String text, String other) {
        StringBuilder made = new StringBuilder(other);
        for (int i = 0; i < text.length(); i++) {
            made.append(text.charAt(i)).append(other);
        }
        return made.toString();
    }

    public static int compareTo(String one, String other) {
        int shorter = one.length() < other.length() ? one.length() : other.length();
        for (int i = 0; i < shorter; i++) {
            int difference = one.charAt(i) - other.charAt(i);
            if (difference != 0) {
                return difference;
            }
        }
        return one.length() - other.length();
    }

    public static int compareTo(String one, Object other) {
        return compareTo(one, (String) other);
    }

    public static int compareToIgnoreCase(String one, String other) {
        int shorter = one.length() < other.length() ? one.length() : other.length();
        for (int i = 0; i < shorter; i++) {
            int difference = compareIgnoreCase(one.charAt(i), other.charAt(i));
            if (difference != 0) {
                return difference;
            }
        }
        return one.length() - other.length();
    }

    private static int compareIgnoreCase(char one, char other) {
        if (one == other) {
            return 0;
        }
        char upper = Character.toUpperCase(one);
        char otherUpper = Character.toUpperCase(other);
        return upper == otherUpper ? 0 : Character.toLowerCase(upper) - Character.toLowerCase(otherUpper);
    }

    public static boolean equalsIgnoreCase(String one, String other) {
        return other != null && one.length() == other.length() && compareToIgnoreCase(one, other) == 0;
    }

    public static char[] toCharArray(String text) {
        char[] letters = new char[text.length()];
        for (int i = 0; i < letters.length; i++) {
            letters[i] = text.charAt(i);
        }
        return letters;
    }

    public static void getChars(String text, int from, int to, char[] into, int place) {
        if (from < 0 || to > text.length() || from > to) {
            throw new StringIndexOutOfBoundsException("begin " + from + ", end " + to + ", length " + text.length());
        }
        if (place < 0 || place > into.length - (to - from)) {
            throw new ArrayIndexOutOfBoundsException("offset " + place + ", count " + (to - from) + ", length " + into.length);
        }
        for (int i = from; i < to; i++) {
            into[place + i - from] = text.charAt(i);
        }
    }

    public static boolean regionMatches(String text, int at, String other, int otherAt, int length) {
        return regionMatches(text, false, at, other, otherAt, length);
    }

    public static boolean regionMatches(String text, boolean ignoreCase, int at, String other, int otherAt, int length) {
        if (at < 0 || otherAt < 0 || at > (long) text.length() - length || otherAt > (long) other.length() - length) {
            return false;
        }
        for (int i = 0; i < length; i++) {
            char one = text.charAt(at + i);
            char two = other.charAt(otherAt + i);
            if (one != two && (!ignoreCase || compareIgnoreCase(one, two) != 0)) {
                return false;
            }
        }
        return true;
    }

    public static CharSequence subSequence(String text, int from, int to) {
        return (CharSequence) (Object) text.substring(from, to);
    }

    public static String intern(String text) {
        return text;
    }

    public static boolean contentEquals(String text, CharSequence other) {
        return text.equals(ObjectHelpers.toString(other));
    }

    public static boolean contentEquals(String text, StringBuffer other) {
        return text.equals(other.toString());
    }

    public static int codePointAt(String text, int index) {
        char high = text.charAt(index);
        if (high >= 0xD800 && high < 0xDC00 && index + 1 < text.length()) {
            char low = text.charAt(index + 1);
            if (low >= 0xDC00 && low < 0xE000) {
                return ((high - 0xD800) << 10) + (low - 0xDC00) + 0x10000;
            }
        }
        return high;
    }

    public static int codePointBefore(String text, int index) {
        char low = text.charAt(index - 1);
        if (low >= 0xDC00 && low < 0xE000 && index > 1) {
            char high = text.charAt(index - 2);
            if (high >= 0xD800 && high < 0xDC00) {
                return ((high - 0xD800) << 10) + (low - 0xDC00) + 0x10000;
            }
        }
        return low;
    }

    public static int codePointCount(String text, int from, int to) {
        if (from < 0 || to > text.length() || from > to) {
            throw new IndexOutOfBoundsException();
        }
        int count = 0;
        for (int i = from; i < to; i++) {
            count++;
            if (i + 1 < to && codePointAt(text, i) >= 0x10000) {
                i++;
            }
        }
        return count;
    }

    public static int offsetByCodePoints(String text, int index, int points) {
        return Character.offsetByCodePoints((CharSequence) (Object) text, index, points);
    }

    public static IntStream chars(String text) {
        int[] letters = new int[text.length()];
        for (int i = 0; i < letters.length; i++) {
            letters[i] = text.charAt(i);
        }
        return IntStream.of(letters);
    }

    public static IntStream codePoints(String text) {
        int[] points = new int[codePointCount(text, 0, text.length())];
        int at = 0;
        for (int i = 0; i < points.length; i++) {
            points[i] = codePointAt(text, at);
            at += points[i] >= 0x10000 ? 2 : 1;
        }
        return IntStream.of(points);
    }

    public static String valueOf(Object object) {
        return object == null ? "null" : ObjectHelpers.toString(object);
    }

    public static String valueOf(char[] letters) {
        return make(letters);
    }

    public static String valueOf(char[] letters, int from, int count) {
        return make(letters, from, count);
    }

    public static String copyValueOf(char[] letters) {
        return make(letters);
    }

    public static String copyValueOf(char[] letters, int from, int count) {
        return make(letters, from, count);
    }

    public static String valueOf(double number) {
        return Double.toString(number);
    }

    public static String valueOf(float number) {
        return Float.toString(number);
    }

    public static String join(CharSequence between, CharSequence[] parts) {
        StringBuilder joined = new StringBuilder();
        for (int i = 0; i < parts.length; i++) {
            if (i > 0) {
                joined.append(between);
            }
            joined.append(parts[i]);
        }
        return joined.toString();
    }

    public static String join(CharSequence between, Iterable<? extends CharSequence> parts) {
        StringBuilder joined = new StringBuilder();
        boolean first = true;
        for (Object part : parts) {
            if (!first) {
                joined.append(between);
            }
            first = false;
            joined.append(part);
        }
        return joined.toString();
    }

    public static String[] split(String text, String pattern) {
        return split(text, pattern, 0);
    }

    /** As Java does, by one character where the pattern is one, else by a regular expression. */
    public static String[] split(String text, String pattern, int limit) {
        boolean plain = pattern.length() == 1 && indexOf(".$|()[{^?*+\\", pattern.charAt(0)) < 0;
        boolean quoted = pattern.length() == 2 && pattern.charAt(0) == '\\' && !Character.isLetterOrDigit(pattern.charAt(1));
        if (!plain && !quoted) {
            return Pattern.compile(pattern).split((CharSequence) (Object) text, limit);
        }
        char between = pattern.charAt(pattern.length() - 1);
        ArrayList<String> parts = new ArrayList<>();
        int from = 0;
        int found = indexOf(text, between, 0);
        while (found >= 0 && (limit <= 0 || parts.size() < limit - 1)) {
            parts.add(text.substring(from, found));
            from = found + 1;
            found = indexOf(text, between, from);
        }
        if (from == 0) {
            return new String[] {text};
        }
        parts.add(text.substring(from));
        int count = parts.size();
        while (limit == 0 && count > 0 && parts.get(count - 1).isEmpty()) {
            count--;
        }
        String[] result = new String[count];
        for (int i = 0; i < count; i++) {
            result[i] = parts.get(i);
        }
        return result;
    }

    public static boolean matches(String text, String pattern) {
        return Pattern.matches(pattern, (CharSequence) (Object) text);
    }

    public static String replaceAll(String text, String pattern, String other) {
        return Pattern.compile(pattern).matcher((CharSequence) (Object) text).replaceAll(other);
    }

    public static String replaceFirst(String text, String pattern, String other) {
        return Pattern.compile(pattern).matcher((CharSequence) (Object) text).replaceFirst(other);
    }

    public static String format(String format, Object[] arguments) {
        return new java.util.Formatter().format(format, arguments).toString();
    }

    public static String format(Locale locale, String format, Object[] arguments) {
        return new java.util.Formatter(locale).format(format, arguments).toString();
    }

    public static String formatted(String format, Object[] arguments) {
        return format(format, arguments);
    }
}
