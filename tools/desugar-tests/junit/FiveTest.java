package kinds;

import static org.junit.jupiter.api.Assertions.assertEquals;
import static org.junit.jupiter.api.Assertions.assertNull;
import static org.junit.jupiter.api.Assertions.assertThrows;
import static org.junit.jupiter.api.Assertions.assertTrue;
import static org.junit.jupiter.api.Assumptions.assumeTrue;

import java.lang.annotation.Retention;
import java.lang.annotation.RetentionPolicy;
import java.util.ArrayList;
import java.util.List;
import java.util.stream.Stream;
import org.junit.jupiter.api.AfterAll;
import org.junit.jupiter.api.AfterEach;
import org.junit.jupiter.api.BeforeAll;
import org.junit.jupiter.api.BeforeEach;
import org.junit.jupiter.api.Disabled;
import org.junit.jupiter.api.Nested;
import org.junit.jupiter.api.RepeatedTest;
import org.junit.jupiter.api.Test;
import org.junit.jupiter.api.TestInfo;
import org.junit.jupiter.params.ParameterizedTest;
import org.junit.jupiter.params.provider.Arguments;
import org.junit.jupiter.params.provider.CsvSource;
import org.junit.jupiter.params.provider.EnumSource;
import org.junit.jupiter.params.provider.MethodSource;
import org.junit.jupiter.params.provider.NullAndEmptySource;
import org.junit.jupiter.params.provider.ValueSource;

class FiveTest {
    enum Colour { RED, GREEN }

    /** A test by an annotation of its own. */
    @Test
    @Retention(RetentionPolicy.RUNTIME)
    @interface Quick {}

    static int classes;
    private final List<String> calls = new ArrayList<>();

    @BeforeAll
    static void beginClass() {
        classes++;
    }

    @AfterAll
    static void endClass() {
        classes--;
    }

    @BeforeEach
    void begin() {
        calls.add("outer");
    }

    @AfterEach
    void end() {
        calls.clear();
    }

    @Test
    void order() {
        assertEquals("[outer]", calls.toString());
        assertEquals(1, classes);
    }

    @Quick
    void composed() {
        assertThrows(ArithmeticException.class, () -> assertEquals(1, 1 / (classes - classes)));
    }

    @Test
    @Disabled
    void disabled() {}

    @Test
    void assumed() {
        assumeTrue(classes == 0);
    }

    @Test
    void fails() {
        assertTrue(calls.isEmpty());
    }

    @RepeatedTest(3)
    void repeated() {
        assertEquals(1, calls.size());
    }

    @ParameterizedTest
    @ValueSource(ints = {1, 2, 3})
    void values(long given) {
        assertTrue(given > 0);
    }

    @ParameterizedTest
    @NullAndEmptySource
    void nothing(String given) {
        assertTrue(given == null || given.isEmpty());
    }

    @ParameterizedTest
    @EnumSource(Colour.class)
    void colours(Colour given) {
        assertEquals(given, Colour.valueOf(given.name()));
    }

    @ParameterizedTest
    @CsvSource({"RED, 3, 0.5", "GREEN, 5, 1.5"})
    void lines(Colour given, int length, double half) {
        assertEquals(length, given.name().length());
        assertEquals(length / 2, (int) (half + length / 2.0 - 0.5), 1);
    }

    @ParameterizedTest
    @CsvSource("one,,' two, three '")
    void quoted(String first, String none, String third) {
        assertEquals("one", first);
        assertNull(none);
        assertEquals(" two, three ", third);
    }

    @ParameterizedTest
    @MethodSource("pairs")
    void pairs(String text, int length) {
        assertEquals(length, text.length());
    }

    static Stream<Arguments> pairs() {
        return Stream.of(Arguments.of("", 0), Arguments.of("one", 3));
    }

    @ParameterizedTest
    @MethodSource("pairs")
    void failsForOne(String text, int length) {
        assertEquals(3, length);
    }

    @Test
    void argument(TestInfo info) {}

    @Nested
    class Inner {
        @BeforeEach
        void inner() {
            calls.add("inner");
        }

        @Test
        void nested() {
            assertEquals("[outer, inner]", calls.toString());
        }
    }
}
