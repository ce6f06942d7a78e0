package kinds;

import static org.junit.Assert.assertEquals;

import org.junit.Before;
import org.junit.ClassRule;
import org.junit.Rule;
import org.junit.Test;
import org.junit.rules.ExpectedException;
import org.junit.rules.ExternalResource;
import org.junit.rules.TestName;

public class FourRule {
    @Rule
    public final TestName name = new TestName();

    @Rule
    public final ExpectedException thrown = ExpectedException.none();

    private String seen;

    @Before
    public void see() {
        seen = name.getMethodName();
    }

    @Test
    public void named() {
        assertEquals("named", seen);
    }

    @Test
    public void expected() {
        thrown.expect(IllegalStateException.class);
        throw new IllegalStateException("so");
    }

    @Test
    public void expectedInVain() {
        thrown.expect(IllegalStateException.class);
    }

    public static class OfClass {
        @ClassRule
        public static final ExternalResource RESOURCE = new ExternalResource() {};

        @Test
        public void ruled() {}
    }
}
