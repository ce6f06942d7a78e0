/** Prices that are the same in every test, but can be changed. */
class Prices {
    static int base = 100;
    static int taxPercent = 19;
    static String currency = "EUR";
}
