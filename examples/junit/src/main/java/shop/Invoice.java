package shop;

/** A bill with a number of its own. */
public final class Invoice {
    private static int last;

    private final int number;
    private final int cents;

    public Invoice(Cart cart, Discount discount) {
        number = ++last;
        cents = cart.cents(discount);
    }

    @Override
    public String toString() {
        return String.format("%04d: %d.%02d EUR", number, cents / 100, cents % 100);
    }
}
