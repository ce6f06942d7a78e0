package language;

import electric.Env;

/** When classes are initialised, and in which order (JVMS 5.5). */
public class StartTest {
    static class Base {
        static int base = note("base", 1);
    }

    static class Derived extends Base {
        static final int CONSTANT = 5;
        static int derived = note("derived", base + 1);

        static void touch() {
            System.out.println("touched");
        }
    }

    interface Quiet {
        int UNUSED = note("quiet", 0);
    }

    interface Loud {
        int HEARD = note("loud", 0);

        default void shout() {}
    }

    static class Both implements Quiet, Loud {
        static int both = note("both", 0);
    }

    static class Circular {
        static int first = Other.second + 1;

        static class Other {
            static int second = Circular.first + 1;
        }
    }

    static class Bad {
        static int value = note("bad", 1) / zero();

        static int zero() {
            return 0;
        }
    }

    static int note(String name, int n) {
        System.out.println(name);
        return n;
    }

    public void test1Constant() {
        Env.print(Derived.CONSTANT);
    }

    public void test2Order() {
        Derived.touch();
        Env.print(Derived.derived);
    }

    public void test3Again() {
        Derived.touch();
        Env.print(Base.base);
    }

    public void test4Arrays() {
        Both[] none = new Both[2];
        Check.that(none[0] == null);
    }

    public void test5Interfaces() {
        new Both();
        Env.print(Quiet.UNUSED);
    }

    public void test6Circular() {
        Env.print(Circular.first);
        Env.print(Circular.Other.second);
    }

    public void test7Bad() {
        boolean caught = false;
        try {
            Env.print(Bad.value);
        } catch (ExceptionInInitializerError e) {
            caught = true;
        }
        Check.that(caught);
    }

    public void test8BadAgain() {
        boolean caught = false;
        try {
            Env.print(Bad.zero());
        } catch (NoClassDefFoundError e) {
            caught = true;
        }
        Check.that(caught);
        new Bad();
    }
}
