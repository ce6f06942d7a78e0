package shop;

import java.util.LinkedHashMap;
import java.util.Map;

/** The prices of goods, one catalogue for the whole shop. */
public final class Catalogue {
    private static final Map<String, Integer> CENTS = new LinkedHashMap<>();

    private Catalogue() {}

    public static void put(String good, int cents) {
        CENTS.put(good, cents);
    }

    public static int cents(String good) {
        Integer cents = CENTS.get(good);
        if (cents == null) {
            throw new IllegalArgumentException("no such good: " + good);
        }
        return cents;
    }

    public static int size() {
        return CENTS.size();
    }
}
