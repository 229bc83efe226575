package shop;

import static org.junit.jupiter.api.Assertions.*;
import static org.junit.jupiter.api.Assumptions.assumeTrue;

import org.junit.jupiter.api.*;
import org.junit.jupiter.api.parallel.*;

@ResourceLock(value = Resources.SYSTEM_PROPERTIES, mode = ResourceAccessMode.READ_WRITE)
class CartTest {
    static int price;
    int count = 0;

    @BeforeAll static void open() { price = 7; }
    @BeforeEach void fill() { count = 2; System.setProperty("currency", "EUR"); }

    @Test @DisplayName("two at 7") void total() { assertEquals(14, count * price); }
    @Test void currency() { assertEquals("EUR", System.getProperty("currency")); }
    @Test void francs() {
        assumeTrue(System.getProperty("currency").equals("CHF"), "francs come later");
        fail("not reached");
    }
    @Disabled("the printer is away") @Test void prints() { fail("no printer"); }

    @Nested class Few {
        @Test void count() { assertTrue(count < 3); }
    }
}
