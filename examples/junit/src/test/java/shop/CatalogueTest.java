package shop;

import static org.junit.jupiter.api.Assertions.assertEquals;

import org.junit.jupiter.api.Test;

class CatalogueTest {
    /** Passes only behind a test that filled the catalogue. */
    @Test
    void knowsTea() {
        assertEquals(250, Catalogue.cents("tea"));
    }

    @Test
    void counts() {
        int before = Catalogue.size();
        Catalogue.put("salt", 90);
        assertEquals(before + 1, Catalogue.size());
    }
}
