package shop;

import java.util.function.IntUnaryOperator;

/** What a customer pays of a sum in cents. */
public enum Discount {
    NONE(cents -> cents),
    TEN_PERCENT(cents -> (int) Math.round(cents * 0.9)),
    A_EURO_OFF(cents -> Math.max(0, cents - 100));

    private final IntUnaryOperator rule;

    Discount(IntUnaryOperator rule) {
        this.rule = rule;
    }

    public int of(int cents) {
        return rule.applyAsInt(cents);
    }
}
