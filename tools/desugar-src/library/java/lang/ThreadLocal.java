package java.lang;

import java.util.function.Supplier;

/** A value of the one thread that there is. */
public class ThreadLocal<T> {
    private boolean isSet;
    private T value;

    public ThreadLocal() {}

    protected T initialValue() {
        return null;
    }

    /** The value; null is not kept where no class below gives a first one, as that makes no difference. */
    public T get() {
        if (!isSet && getClass() != ThreadLocal.class) {
            set(initialValue());
        }
        return value;
    }

    public void set(T value) {
        this.value = value;
        isSet = true;
    }

    public void remove() {
        value = null;
        isSet = false;
    }

    public static <S> ThreadLocal<S> withInitial(Supplier<? extends S> supplier) {
        return new Supplied<S>(supplier);
    }

    private static final class Supplied<T> extends ThreadLocal<T> {
        private final Supplier<? extends T> supplier;

        Supplied(Supplier<? extends T> supplier) {
            this.supplier = supplier;
        }

        @Override
        protected T initialValue() {
            return supplier.get();
        }
    }
}
