package java.util.concurrent.atomic;

import java.util.function.LongBinaryOperator;
import java.util.function.LongUnaryOperator;

/** A number in a field, as no threads run. */
public class AtomicLong extends Number {
    private long value;

    public AtomicLong() {}

    public AtomicLong(long value) {
        this.value = value;
    }

    public final long get() {
        return value;
    }

    public final void set(long value) {
        this.value = value;
    }

    public final void lazySet(long value) {
        this.value = value;
    }

    public final long getAndSet(long value) {
        long old = this.value;
        this.value = value;
        return old;
    }

    public final boolean compareAndSet(long expected, long value) {
        boolean same = this.value == expected;
        if (same) {
            this.value = value;
        }
        return same;
    }

    public final boolean weakCompareAndSet(long expected, long value) {
        return compareAndSet(expected, value);
    }

    public final boolean weakCompareAndSetPlain(long expected, long value) {
        return compareAndSet(expected, value);
    }

    public final long getPlain() {
        return value;
    }

    public final long incrementAndGet() {
        return ++value;
    }

    public final long decrementAndGet() {
        return --value;
    }

    public final long getAndIncrement() {
        return value++;
    }

    public final long getAndDecrement() {
        return value--;
    }

    public final long addAndGet(long more) {
        value += more;
        return value;
    }

    public final long getAndAdd(long more) {
        long old = value;
        value += more;
        return old;
    }

    public final long updateAndGet(LongUnaryOperator update) {
        value = update.applyAsLong(value);
        return value;
    }

    public final long getAndUpdate(LongUnaryOperator update) {
        long old = value;
        value = update.applyAsLong(value);
        return old;
    }

    public final long accumulateAndGet(long other, LongBinaryOperator combine) {
        value = combine.applyAsLong(value, other);
        return value;
    }

    public final long getAndAccumulate(long other, LongBinaryOperator combine) {
        long old = value;
        value = combine.applyAsLong(value, other);
        return old;
    }

    @Override
    public int intValue() {
        return (int) value;
    }

    @Override
    public long longValue() {
        return value;
    }

    @Override
    public float floatValue() {
        return value;
    }

    @Override
    public double doubleValue() {
        return value;
    }

    @Override
    public String toString() {
        return String.valueOf(value);
    }
}
