package shop;

import static org.junit.jupiter.api.Assertions.assertEquals;
import static org.junit.jupiter.api.Assertions.assertThrows;

import java.util.Arrays;
import org.junit.jupiter.api.BeforeEach;
import org.junit.jupiter.api.Test;
import org.junit.jupiter.params.ParameterizedTest;
import org.junit.jupiter.params.provider.CsvSource;

class CartTest {
    private Cart cart;

    @BeforeEach
    void fill() {
        Catalogue.put("tea", 250);
        Catalogue.put("bread", 320);
        cart = new Cart();
        cart.add("tea");
        cart.add("bread");
    }

    @Test
    void sortsByPrice() {
        assertEquals(Arrays.asList("bread", "tea"), cart.byPrice());
    }

    @Test
    void averages() {
        assertEquals(2.85, cart.average() / 100, 1e-9);
    }

    @ParameterizedTest
    @CsvSource({"NONE, 570", "TEN_PERCENT, 513", "A_EURO_OFF, 470"})
    void takesDiscounts(Discount discount, int cents) {
        assertEquals(cents, cart.cents(discount));
    }

    @Test
    void refusesUnknownGoods() {
        cart.add("caviar");
        IllegalArgumentException thrown = assertThrows(IllegalArgumentException.class, () -> cart.cents(Discount.NONE));
        assertEquals("no such good: caviar", thrown.getMessage());
    }
}
