package jamuvelor.lib;

import jamuvelor.lib.raw.Strings;

/** StringBuilder over an array of characters; under another name it is StringBuffer. */
public final class StringBuilder implements CharSequence, Comparable<StringBuilder>, Appendable, java.io.Serializable {
    private char[] letters;
    private int count;

    public StringBuilder() {
        letters = new char[16];
    }

    public StringBuilder(int capacity) {
        letters = new char[capacity];
    }

    public StringBuilder(String text) {
        letters = new char[text.length() + 16];
        append(text);
    }

    public StringBuilder(CharSequence text) {
        letters = new char[text.length() + 16];
        append(text);
    }

    private void room(int needed) {
        if (needed > letters.length) {
            int capacity = letters.length * 2 + 2;
            char[] more = new char[capacity < needed ? needed : capacity];
            for (int i = 0; i < count; i++) {
                more[i] = letters[i];
            }
            letters = more;
        }
    }

    @Override
    public int length() {
        return count;
    }

    public int capacity() {
        return letters.length;
    }

    public void ensureCapacity(int needed) {
        room(needed);
    }

    public void trimToSize() {
        char[] less = new char[count];
        for (int i = 0; i < count; i++) {
            less[i] = letters[i];
        }
        letters = less;
    }

    @Override
    public String toString() {
        return Strings.make(letters, 0, count);
    }

    public StringBuilder append(String text) {
        String added = text == null ? "null" : text;
        int length = added.length();
        room(count + length);
        char[] to = letters;
        int at = count;
        for (int i = 0; i < length; i++) {
            to[at++] = added.charAt(i);
        }
        count = at;
        return this;
    }

    public StringBuilder append(Object object) {
        return append(StringHelpers.valueOf(object));
    }

    public StringBuilder append(StringBuffer text) {
        return append(StringHelpers.valueOf(text));
    }

    @Override
    public StringBuilder append(CharSequence text) {
        return append(StringHelpers.valueOf(text));
    }

    @Override
    public StringBuilder append(CharSequence text, int from, int to) {
        String added = StringHelpers.valueOf(text);
        if (from < 0 || to < from || to > added.length()) {
            throw new IndexOutOfBoundsException("start " + from + ", end " + to + ", length " + added.length());
        }
        return append(added.substring(from, to));
    }

    public StringBuilder append(char[] text) {
        return append(text, 0, text.length);
    }

    public StringBuilder append(char[] text, int from, int length) {
        if (from < 0 || length < 0 || from > text.length - length) {
            throw new IndexOutOfBoundsException("offset " + from + ", count " + length + ", length " + text.length);
        }
        room(count + length);
        for (int i = 0; i < length; i++) {
            letters[count + i] = text[from + i];
        }
        count += length;
        return this;
    }

    public StringBuilder append(boolean flag) {
        return append(flag ? "true" : "false");
    }

    @Override
    public StringBuilder append(char letter) {
        if (count == letters.length) {
            room(count + 1);
        }
        letters[count++] = letter;
        return this;
    }

    public StringBuilder append(int number) {
        return append(String.valueOf(number));
    }

    public StringBuilder append(long number) {
        return append(String.valueOf(number));
    }

    public StringBuilder append(float number) {
        return append(Float.toString(number));
    }

    public StringBuilder append(double number) {
        return append(Double.toString(number));
    }

    public StringBuilder appendCodePoint(int point) {
        return append(Character.toChars(point));
    }

    private void check(int index) {
        if (index < 0 || index >= count) {
            throw new StringIndexOutOfBoundsException("index " + index + ",length " + count);
        }
    }

    private void checkRange(int from, int to) {
        if (from < 0 || from > to || to > count) {
            throw new StringIndexOutOfBoundsException("start " + from + ", end " + to + ", length " + count);
        }
    }

    private void checkOffset(int offset) {
        if (offset < 0 || offset > count) {
            throw new StringIndexOutOfBoundsException("offset " + offset + ", length " + count);
        }
    }

    @Override
    public char charAt(int index) {
        check(index);
        return letters[index];
    }

    public void setCharAt(int index, char letter) {
        check(index);
        letters[index] = letter;
    }

    public void setLength(int length) {
        if (length < 0) {
            throw new StringIndexOutOfBoundsException("String index out of range: " + length);
        }
        room(length);
        for (int i = count; i < length; i++) {
            letters[i] = 0;
        }
        count = length;
    }

    public StringBuilder delete(int from, int to) {
        int end = to > count ? count : to;
        checkRange(from, end);
        int less = end - from;
        for (int i = end; i < count; i++) {
            letters[i - less] = letters[i];
        }
        count -= less;
        return this;
    }

    public StringBuilder deleteCharAt(int index) {
        check(index);
        return delete(index, index + 1);
    }

    public StringBuilder insert(int offset, String text) {
        checkOffset(offset);
        String added = text == null ? "null" : text;
        int length = added.length();
        room(count + length);
        for (int i = count - 1; i >= offset; i--) {
            letters[i + length] = letters[i];
        }
        for (int i = 0; i < length; i++) {
            letters[offset + i] = added.charAt(i);
        }
        count += length;
        return this;
    }

    public StringBuilder insert(int offset, Object object) {
        return insert(offset, StringHelpers.valueOf(object));
    }

    public StringBuilder insert(int offset, CharSequence text) {
        return insert(offset, StringHelpers.valueOf(text));
    }

    public StringBuilder insert(int offset, CharSequence text, int from, int to) {
        return insert(offset, StringHelpers.valueOf(text).substring(from, to));
    }

    public StringBuilder insert(int offset, char letter) {
        return insert(offset, String.valueOf(letter));
    }

    public StringBuilder insert(int offset, char[] text) {
        return insert(offset, StringHelpers.make(text));
    }

    public StringBuilder insert(int offset, char[] text, int from, int length) {
        return insert(offset, StringHelpers.make(text, from, length));
    }

    public StringBuilder insert(int offset, boolean flag) {
        return insert(offset, String.valueOf(flag));
    }

    public StringBuilder insert(int offset, int number) {
        return insert(offset, String.valueOf(number));
    }

    public StringBuilder insert(int offset, long number) {
        return insert(offset, String.valueOf(number));
    }

    public StringBuilder insert(int offset, float number) {
        return insert(offset, Float.toString(number));
    }

    public StringBuilder insert(int offset, double number) {
        return insert(offset, Double.toString(number));
    }

    public StringBuilder replace(int from, int to, String text) {
        int end = to > count ? count : to;
        checkRange(from, end);
        delete(from, end);
        return insert(from, text);
    }

    /** Reverses the characters; pairs of surrogates keep their order. */
    public StringBuilder reverse() {
        for (int i = 0, j = count - 1; i < j; i++, j--) {
            char letter = letters[i];
            letters[i] = letters[j];
            letters[j] = letter;
        }
        for (int i = 0; i + 1 < count; i++) {
            char low = letters[i];
            char high = letters[i + 1];
            if (Character.isLowSurrogate(low) && Character.isHighSurrogate(high)) {
                letters[i++] = high;
                letters[i] = low;
            }
        }
        return this;
    }

    public String substring(int from) {
        return substring(from, count);
    }

    public String substring(int from, int to) {
        checkRange(from, to);
        return Strings.make(letters, from, to - from);
    }

    @Override
    public CharSequence subSequence(int from, int to) {
        return substring(from, to);
    }

    public void getChars(int from, int to, char[] into, int place) {
        checkRange(from, to);
        SystemHelpers.arraycopy(letters, from, into, place, to - from);
    }

    public int indexOf(String text) {
        return toString().indexOf(text);
    }

    public int indexOf(String text, int from) {
        return toString().indexOf(text, from);
    }

    public int lastIndexOf(String text) {
        return toString().lastIndexOf(text);
    }

    public int lastIndexOf(String text, int from) {
        return toString().lastIndexOf(text, from);
    }

    public int codePointAt(int index) {
        check(index);
        return toString().codePointAt(index);
    }

    public int codePointBefore(int index) {
        return toString().codePointBefore(index);
    }

    public int codePointCount(int from, int to) {
        return toString().codePointCount(from, to);
    }

    public int offsetByCodePoints(int index, int points) {
        return toString().offsetByCodePoints(index, points);
    }

    public java.util.stream.IntStream chars() {
        return StringHelpers.chars(toString());
    }

    @Override
    public int compareTo(StringBuilder other) {
        return toString().compareTo(other.toString());
    }
}
