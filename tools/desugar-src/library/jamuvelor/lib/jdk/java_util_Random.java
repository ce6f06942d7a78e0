package jamuvelor.lib.jdk;

import electric.Env;

/** In place of the seed of Random that differs from run to run: the test's own random numbers. */
public final class java_util_Random {
    private java_util_Random() {}

    public static long seedUniquifier() {
        return (long) Env.random() << 32 ^ Env.random();
    }
}
