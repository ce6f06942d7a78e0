package kinds;

import org.junit.After;
import org.junit.Before;
import org.junit.BeforeClass;

public class FourBase {
    static StringBuilder calls = new StringBuilder();
    static int classes;

    @BeforeClass
    public static void beginClass() {
        classes++;
    }

    @Before
    public void base() {
        calls.setLength(0);
        calls.append("base ");
    }

    @After
    public void baseAfter() {
        calls.append("after ");
    }
}
