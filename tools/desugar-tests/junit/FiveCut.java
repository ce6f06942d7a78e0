package kinds;

import static org.junit.jupiter.api.Assertions.assertNotNull;
import static org.junit.jupiter.api.Assertions.assertThrows;

import org.junit.jupiter.api.MethodOrderer;
import org.junit.jupiter.api.Test;
import org.junit.jupiter.api.TestMethodOrder;

/** Tests that meet what isn't served, and go on as if they hadn't; themselves, or in a class that failed to initialise by it. */
@TestMethodOrder(MethodOrderer.MethodName.class)
class FiveCut {
    static class Broken {
        static final Runtime RUNTIME = Runtime.getRuntime();
    }

    static class Above {
        static final Object SEEN = Broken.RUNTIME;
    }

    @Test
    void aSwallows() {
        Object seen = "none";
        try {
            seen = Runtime.getRuntime();
        } catch (Throwable thrown) {
            seen = thrown;
        }
        assertNotNull(seen);
    }

    @Test
    void bExpects() {
        assertThrows(Throwable.class, () -> Broken.RUNTIME.toString().charAt(-1));
    }

    @Test
    void cMeets() {
        assertNotNull(Broken.RUNTIME);
    }

    @Test
    void dSwallows() {
        try {
            assertNotNull(Above.SEEN);
        } catch (Throwable thrown) {
            assertNotNull(thrown);
        }
    }
}
