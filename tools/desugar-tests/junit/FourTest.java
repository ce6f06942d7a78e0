package kinds;

import static org.junit.Assert.assertEquals;
import static org.junit.Assume.assumeTrue;

import org.junit.AfterClass;
import org.junit.Before;
import org.junit.Ignore;
import org.junit.Test;

public class FourTest extends FourBase {
    @Before
    public void own() {
        calls.append("own ");
    }

    @AfterClass
    public static void endClass() {
        calls.append("end");
    }

    @Test
    public void order() {
        assertEquals("base own ", calls.toString());
        assertEquals(1, classes);
    }

    @Test(expected = IllegalArgumentException.class)
    public void expected() {
        throw new NumberFormatException();
    }

    @Test(expected = IllegalArgumentException.class)
    public void expectedNothingThrown() {}

    @Test(expected = IllegalArgumentException.class)
    public void expectedAnotherThrown() {
        throw new IllegalStateException();
    }

    @Test
    @Ignore
    public void ignored() {
        throw new IllegalStateException();
    }

    @Test
    public void assumed() {
        assumeTrue(calls.length() == 0);
        throw new IllegalStateException();
    }

    @Test(timeout = 1000)
    public void caught() {
        try {
            Object none = null;
            none.toString();
        } catch (NullPointerException thrown) {
            calls.append(thrown);
        }
    }
}
