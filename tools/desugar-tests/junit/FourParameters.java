package kinds;

import static org.junit.Assert.assertEquals;

import java.util.Arrays;
import java.util.Collection;
import org.junit.Test;
import org.junit.runner.RunWith;
import org.junit.runners.Parameterized;

@RunWith(Parameterized.class)
public class FourParameters {
    private final String text;
    private final int length;

    public FourParameters(String text, int length) {
        this.text = text;
        this.length = length;
    }

    @Parameterized.Parameters
    public static Collection<Object[]> texts() {
        return Arrays.asList(new Object[][] {{"", 0}, {"one", 3}});
    }

    @Test
    public void hasItsLength() {
        assertEquals(length, text.length());
    }
}
