package bank;

import electric.Files;

/** Exchange rates, in hundredths. Each is looked up once in the file `rates`, and then kept in a static. */
public class Rates {
    private static final String[] codes = new String[8];
    private static final int[] rates = new int[8];
    private static int known;

    /** How often the file was read. */
    static int reads;

    public static int of(String code) {
        for (int i = 0; i < known; i++) {
            if (codes[i].equals(code)) {
                return rates[i];
            }
        }
        int rate = read(code);
        codes[known] = code;
        rates[known++] = rate;
        return rate;
    }

    /** Lines `CODE HUNDREDTHS`. */
    private static int read(String code) {
        reads++;
        String text = Files.read("rates");
        int begin = 0;
        for (int i = 0; i < text.length(); i++) {
            if (text.charAt(i) == '\n') {
                String line = text.substring(begin, i);
                if (line.substring(0, 3).equals(code)) {
                    return number(line.substring(4));
                }
                begin = i + 1;
            }
        }
        throw new IllegalArgumentException("no rate of " + code);
    }

    private static int number(String digits) {
        int n = 0;
        for (int i = 0; i < digits.length(); i++) {
            n = 10 * n + (digits.charAt(i) - '0');
        }
        return n;
    }
}
