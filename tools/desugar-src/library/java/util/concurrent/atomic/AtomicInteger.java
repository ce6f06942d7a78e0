package java.util.concurrent.atomic;

import java.util.function.IntBinaryOperator;
import java.util.function.IntUnaryOperator;

/** A number in a field, as no threads run. */
public class AtomicInteger extends Number {
    private int value;

    public AtomicInteger() {}

    public AtomicInteger(int value) {
        this.value = value;
    }

    public final int get() {
        return value;
    }

    public final void set(int value) {
        this.value = value;
    }

    public final void lazySet(int value) {
        this.value = value;
    }

    public final int getAndSet(int value) {
        int old = this.value;
        this.value = value;
        return old;
    }

    public final boolean compareAndSet(int expected, int value) {
        boolean same = this.value == expected;
        if (same) {
            this.value = value;
        }
        return same;
    }

    public final boolean weakCompareAndSet(int expected, int value) {
        return compareAndSet(expected, value);
    }

    public final boolean weakCompareAndSetPlain(int expected, int value) {
        return compareAndSet(expected, value);
    }

    public final int getPlain() {
        return value;
    }

    public final int incrementAndGet() {
        return ++value;
    }

    public final int decrementAndGet() {
        return --value;
    }

    public final int getAndIncrement() {
        return value++;
    }

    public final int getAndDecrement() {
        return value--;
    }

    public final int addAndGet(int more) {
        value += more;
        return value;
    }

    public final int getAndAdd(int more) {
        int old = value;
        value += more;
        return old;
    }

    public final int updateAndGet(IntUnaryOperator update) {
        value = update.applyAsInt(value);
        return value;
    }

    public final int getAndUpdate(IntUnaryOperator update) {
        int old = value;
        value = update.applyAsInt(value);
        return old;
    }

    public final int accumulateAndGet(int other, IntBinaryOperator combine) {
        value = combine.applyAsInt(value, other);
        return value;
    }

    public final int getAndAccumulate(int other, IntBinaryOperator combine) {
        int old = value;
        value = combine.applyAsInt(value, other);
        return old;
    }

    @Override
    public int intValue() {
        return value;
    }

    @Override
    public long longValue() {
        return value;
    }

    @Override
    public float floatValue() {
        return value;
    }

    @Override
    public double doubleValue() {
        return value;
    }

    @Override
    public String toString() {
        return String.valueOf(value);
    }
}
