package shop;

import static org.junit.jupiter.api.Assertions.assertEquals;

import org.junit.jupiter.api.Test;

class InvoiceTest {
    /** Passes only where no test made an invoice before. */
    @Test
    void writesTheSum() {
        Catalogue.put("salt", 90);
        Cart cart = new Cart();
        cart.add("salt");
        assertEquals("0001: 0.90 EUR", new Invoice(cart, Discount.NONE).toString());
    }

    /** Passes only behind the other test, as numbers go on. */
    @Test
    void hasANumberOfItsOwn() {
        assertEquals("0002: 0.00 EUR", new Invoice(new Cart(), Discount.NONE).toString());
    }
}
