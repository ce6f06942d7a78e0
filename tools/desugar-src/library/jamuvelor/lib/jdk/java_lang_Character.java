package jamuvelor.lib.jdk;

/** In place of methods of Character: ASCII is answered without tables. */
public final class java_lang_Character {
    private java_lang_Character() {}

    public static String toString(char letter) {
        return String.valueOf(letter);
    }

    public static String toString(Character letter) {
        return String.valueOf(letter.charValue());
    }

    public static char toLowerCase(char letter) {
        if (letter < 128) {
            return letter >= 'A' && letter <= 'Z' ? (char) (letter + 32) : letter;
        }
        return (char) Character.toLowerCase((int) letter);
    }

    public static char toUpperCase(char letter) {
        if (letter < 128) {
            return letter >= 'a' && letter <= 'z' ? (char) (letter - 32) : letter;
        }
        return (char) Character.toUpperCase((int) letter);
    }

    public static int digit(char letter, int radix) {
        if (letter >= 128) {
            return Character.digit((int) letter, radix);
        }
        int digit = letter >= '0' && letter <= '9' ? letter - '0'
                : letter >= 'a' && letter <= 'z' ? letter - 'a' + 10
                : letter >= 'A' && letter <= 'Z' ? letter - 'A' + 10 : -1;
        return digit < radix && radix >= Character.MIN_RADIX && radix <= Character.MAX_RADIX ? digit : -1;
    }

    public static boolean isDigit(char letter) {
        return letter < 128 ? letter >= '0' && letter <= '9' : Character.isDigit((int) letter);
    }

    public static boolean isLetter(char letter) {
        return letter < 128 ? letter >= 'a' && letter <= 'z' || letter >= 'A' && letter <= 'Z' : Character.isLetter((int) letter);
    }

    public static boolean isLetterOrDigit(char letter) {
        return isLetter(letter) || isDigit(letter);
    }

    public static boolean isWhitespace(char letter) {
        return letter < 128 ? letter >= 9 && letter <= 13 || letter >= 28 && letter <= 32 : Character.isWhitespace((int) letter);
    }

    public static boolean isUpperCase(char letter) {
        return letter < 128 ? letter >= 'A' && letter <= 'Z' : Character.isUpperCase((int) letter);
    }

    public static boolean isLowerCase(char letter) {
        return letter < 128 ? letter >= 'a' && letter <= 'z' : Character.isLowerCase((int) letter);
    }
}
