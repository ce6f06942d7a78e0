package java.util;

public final class StringJoiner {
    private final String between;
    private final String first;
    private final String last;
    private String empty;
    private StringBuilder joined;

    public StringJoiner(CharSequence between) {
        this(between, "", "");
    }

    public StringJoiner(CharSequence between, CharSequence first, CharSequence last) {
        this.between = between.toString();
        this.first = first.toString();
        this.last = last.toString();
    }

    public StringJoiner setEmptyValue(CharSequence empty) {
        this.empty = empty.toString();
        return this;
    }

    public StringJoiner add(CharSequence part) {
        if (joined == null) {
            joined = new StringBuilder();
        } else {
            joined.append(between);
        }
        joined.append(part);
        return this;
    }

    public StringJoiner merge(StringJoiner other) {
        if (other.joined != null) {
            add(other.joined.toString());
        }
        return this;
    }

    public int length() {
        return toString().length();
    }

    @Override
    public String toString() {
        if (joined == null && empty != null) {
            return empty;
        }
        return first + (joined == null ? "" : joined.toString()) + last;
    }
}
