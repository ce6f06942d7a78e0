/** Tests of the shop: two of them share the count of orders, the others only use constants. */
public class ShopTest {
    public void testNet() {
        System.out.println(Prices.base + " " + Prices.currency);
    }

    public void testGross() {
        int gross = Prices.base + Prices.base * Prices.taxPercent / 100;
        if (gross != 119) {
            throw new AssertionError("gross " + gross);
        }
    }

    public void testTotal() {
        System.out.println(Limits.total + Limits.free);
    }

    public void testAdd() {
        Orders.add(3);
    }

    public void testTooMany() {
        try {
            Orders.add(Limits.items + 1);
        } catch (IllegalArgumentException expected) {
            return;
        }
        throw new AssertionError("added");
    }

    public void testCount() {
        if (Orders.count != 1) {
            throw new AssertionError("orders: " + Orders.count);
        }
    }
}
