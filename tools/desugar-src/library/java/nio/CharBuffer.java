package java.nio;

import java.io.IOException;

/** Characters in an array between a position and a limit. */
public final class CharBuffer implements Comparable<CharBuffer>, Appendable, CharSequence, Readable {
    private final char[] letters;
    private final int start;
    private final int capacity;
    private final boolean readOnly;
    private int position;
    private int limit;
    private int mark = -1;

    private CharBuffer(char[] letters, int start, int capacity, int position, int limit, boolean readOnly) {
        this.letters = letters;
        this.start = start;
        this.capacity = capacity;
        this.position = position;
        this.limit = limit;
        this.readOnly = readOnly;
    }

    public static CharBuffer allocate(int capacity) {
        if (capacity < 0) {
            throw new IllegalArgumentException("capacity < 0: (" + capacity + " < 0)");
        }
        return wrap(new char[capacity]);
    }

    public static CharBuffer wrap(char[] letters) {
        return wrap(letters, 0, letters.length);
    }

    public static CharBuffer wrap(char[] letters, int from, int count) {
        if (from < 0 || count < 0 || from > letters.length - count) {
            throw new IndexOutOfBoundsException();
        }
        return new CharBuffer(letters, 0, letters.length, from, from + count, false);
    }

    public static CharBuffer wrap(CharSequence text) {
        return wrap(text, 0, text.length());
    }

    public static CharBuffer wrap(CharSequence text, int from, int to) {
        char[] letters = text.toString().toCharArray();
        if (from < 0 || to < from || to > letters.length) {
            throw new IndexOutOfBoundsException();
        }
        return new CharBuffer(letters, 0, letters.length, from, to, true);
    }

    @Override
    public int read(CharBuffer target) throws IOException {
        if (!hasRemaining()) {
            return -1;
        }
        int count = Math.min(remaining(), target.remaining());
        for (int i = 0; i < count; i++) {
            target.put(get());
        }
        return count;
    }

    public int capacity() {
        return capacity;
    }

    public int position() {
        return position;
    }

    public CharBuffer position(int place) {
        if (place < 0 || place > limit) {
            throw new IllegalArgumentException("newPosition " + (place < 0 ? "< 0: (" + place + " < 0)" : "> limit: (" + place + " > " + limit + ")"));
        }
        mark = mark > place ? -1 : mark;
        position = place;
        return this;
    }

    public int limit() {
        return limit;
    }

    public CharBuffer limit(int place) {
        if (place < 0 || place > capacity) {
            throw new IllegalArgumentException("newLimit " + place);
        }
        limit = place;
        position = Math.min(position, place);
        mark = mark > place ? -1 : mark;
        return this;
    }

    public CharBuffer mark() {
        mark = position;
        return this;
    }

    public CharBuffer reset() {
        if (mark < 0) {
            throw new InvalidMarkException();
        }
        position = mark;
        return this;
    }

    public CharBuffer clear() {
        position = 0;
        limit = capacity;
        mark = -1;
        return this;
    }

    public CharBuffer flip() {
        limit = position;
        position = 0;
        mark = -1;
        return this;
    }

    public CharBuffer rewind() {
        position = 0;
        mark = -1;
        return this;
    }

    public int remaining() {
        return limit - position;
    }

    public boolean hasRemaining() {
        return position < limit;
    }

    public boolean isReadOnly() {
        return readOnly;
    }

    public boolean hasArray() {
        return !readOnly;
    }

    public char[] array() {
        checkWrite();
        return letters;
    }

    public int arrayOffset() {
        checkWrite();
        return start;
    }

    private void checkWrite() {
        if (readOnly) {
            throw new ReadOnlyBufferException();
        }
    }

    public char get() {
        if (position >= limit) {
            throw new BufferUnderflowException();
        }
        return letters[start + position++];
    }

    public char get(int index) {
        if (index < 0 || index >= limit) {
            throw new IndexOutOfBoundsException();
        }
        return letters[start + index];
    }

    public CharBuffer get(char[] into) {
        return get(into, 0, into.length);
    }

    public CharBuffer get(char[] into, int from, int count) {
        if (count > remaining()) {
            throw new BufferUnderflowException();
        }
        System.arraycopy(letters, start + position, into, from, count);
        position += count;
        return this;
    }

    public CharBuffer put(char letter) {
        checkWrite();
        if (position >= limit) {
            throw new BufferOverflowException();
        }
        letters[start + position++] = letter;
        return this;
    }

    public CharBuffer put(int index, char letter) {
        checkWrite();
        if (index < 0 || index >= limit) {
            throw new IndexOutOfBoundsException();
        }
        letters[start + index] = letter;
        return this;
    }

    public CharBuffer put(char[] from, int at, int count) {
        checkWrite();
        if (count > remaining()) {
            throw new BufferOverflowException();
        }
        System.arraycopy(from, at, letters, start + position, count);
        position += count;
        return this;
    }

    public CharBuffer put(char[] from) {
        return put(from, 0, from.length);
    }

    public CharBuffer put(String text) {
        return put(text.toCharArray());
    }

    public CharBuffer put(String text, int from, int to) {
        return put(text.substring(from, to).toCharArray());
    }

    public CharBuffer put(CharBuffer other) {
        char[] taken = new char[other.remaining()];
        other.get(taken);
        return put(taken);
    }

    public CharBuffer compact() {
        checkWrite();
        System.arraycopy(letters, start + position, letters, start, remaining());
        position = remaining();
        limit = capacity;
        mark = -1;
        return this;
    }

    public CharBuffer duplicate() {
        return new CharBuffer(letters, start, capacity, position, limit, readOnly);
    }

    public CharBuffer asReadOnlyBuffer() {
        return new CharBuffer(letters, start, capacity, position, limit, true);
    }

    public CharBuffer slice() {
        return new CharBuffer(letters, start + position, remaining(), 0, remaining(), readOnly);
    }

    @Override
    public int length() {
        return remaining();
    }

    @Override
    public char charAt(int index) {
        if (index < 0 || index >= remaining()) {
            throw new IndexOutOfBoundsException();
        }
        return letters[start + position + index];
    }

    @Override
    public CharBuffer subSequence(int from, int to) {
        if (from < 0 || to < from || to > remaining()) {
            throw new IndexOutOfBoundsException();
        }
        return new CharBuffer(letters, start, capacity, position + from, position + to, readOnly);
    }

    @Override
    public CharBuffer append(CharSequence text) {
        return put(String.valueOf(text));
    }

    @Override
    public CharBuffer append(CharSequence text, int from, int to) {
        return put(String.valueOf(text).substring(from, to));
    }

    @Override
    public CharBuffer append(char letter) {
        return put(letter);
    }

    @Override
    public int compareTo(CharBuffer other) {
        return toString().compareTo(other.toString());
    }

    @Override
    public int hashCode() {
        int hash = 1;
        for (int i = limit - 1; i >= position; i--) {
            hash = 31 * hash + letters[start + i];
        }
        return hash;
    }

    @Override
    public boolean equals(Object other) {
        return other instanceof CharBuffer && toString().equals(other.toString());
    }

    @Override
    public String toString() {
        return new String(letters, start + position, remaining());
    }
}
