package language;

import electric.Env;

/** Classes, interfaces, calls and casts. */
public class ObjectsTest {
    interface Named {
        String NAME = "named".concat("!");

        String name();

        default String greeting() {
            return "hello " + name();
        }
    }

    interface Polite extends Named {
        default String greeting() {
            return "dear " + name();
        }
    }

    static abstract class Animal implements Named {
        static int made;
        final int number;

        Animal() {
            number = ++made;
            describe();
        }

        abstract String sound();

        void describe() {
            System.out.println(number + " " + name() + " " + sound());
        }

        private String secret() {
            return "animal";
        }

        String told() {
            return secret();
        }
    }

    static class Dog extends Animal {
        String bark = "woof";

        public String name() {
            return "dog";
        }

        String sound() {
            return bark;
        }

        private String secret() {
            return "dog";
        }
    }

    static class Puppy extends Dog implements Polite {
        String sound() {
            return super.sound() + "let";
        }

        public String name() {
            return "puppy of " + super.name();
        }
    }

    class Inner {
        int twice() {
            return 2 * base;
        }
    }

    int base = 21;

    public void testDispatch() {
        Animal dog = new Dog();
        Animal puppy = new Puppy();
        System.out.println(dog.sound());
        System.out.println(puppy.sound());
        System.out.println(dog.greeting());
        System.out.println(puppy.greeting());
        System.out.println(puppy.told());
        Named named = puppy;
        System.out.println(named.name());
        System.out.println(Named.NAME);
    }

    public void testCasts() {
        Object puppy = new Puppy();
        Check.that(puppy instanceof Dog && puppy instanceof Named && puppy instanceof Polite);
        Check.that(!(new Dog() instanceof Polite) && !(null instanceof Object));
        Dog dog = (Dog) puppy;
        Check.same("woof", dog.bark);
        boolean caught = false;
        try {
            String text = (String) puppy;
        } catch (ClassCastException e) {
            caught = e.getMessage() != "x";
        }
        Check.that(caught);
    }

    public void testInner() {
        Check.same(42, new Inner().twice());
        base = 4;
        Check.same(8, this.new Inner().twice());
        final int[] count = {0};
        Named local = new Named() {
            public String name() {
                count[0]++;
                return "local";
            }
        };
        Check.same("hello local", local.greeting());
        Check.same(1, count[0]);
    }

    public void testNull() {
        Dog dog = null;
        int caught = 0;
        try {
            Env.print(dog.bark.length());
        } catch (NullPointerException e) {
            caught++;
        }
        try {
            dog.bark = "x";
        } catch (NullPointerException e) {
            caught++;
        }
        try {
            dog.sound();
        } catch (NullPointerException e) {
            caught++;
        }
        try {
            throw null;
        } catch (NullPointerException e) {
            caught++;
        }
        try {
            synchronized (dog) {
                caught += 100;
            }
        } catch (NullPointerException e) {
            caught++;
        }
        Check.same(5, caught);
        dog.told();
    }

    static class Link {
        final long weight;
        final Link next;

        Link(long weight, Link next) {
            this.weight = weight;
            this.next = next;
        }
    }

    public void testLongArguments() {
        Link list = null;
        for (int i = 0; i < 20; i++) {
            list = new Link(i * 10000000000L, list);
        }
        long sum = 0;
        for (Link l = list; l != null; l = l.next) {
            sum = mixed(1, sum, 'x', l.weight, (byte) 3);
        }
        Check.same(1900000000060L, sum);
    }

    static long mixed(int a, long b, char c, long d, byte e) {
        return b + d + (c == 'x' ? e : a);
    }
}
