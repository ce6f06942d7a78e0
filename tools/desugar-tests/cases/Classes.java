import java.util.ArrayList;
import java.util.List;

/** Class tokens, casts, inner classes and clones. */
public class Classes {
    static class Point implements Cloneable, Comparable<Point> {
        int x;
        private double y;
        int[] tail = {1, 2};

        Point(int x, double y) {
            this.x = x;
            this.y = y;
        }

        @Override
        public Point clone() throws CloneNotSupportedException {
            Point copy = (Point) super.clone();
            copy.tail = tail.clone();
            return copy;
        }

        @Override
        public int compareTo(Point other) {
            return Integer.compare(x, other.x);
        }
    }

    static class Named extends Point {
        String name = "n";

        Named() {
            super(7, 8);
        }

        @Override
        public String toString() {
            return name + x + super.y;
        }
    }

    static class Base {
        private String secret() {
            return "base";
        }

        String tell() {
            return secret();
        }
    }

    static class Derived extends Base {
        private String secret() {
            return "derived";
        }

        String both() {
            return tell() + secret() + ((Base) this).secret();
        }
    }

    record Pair(int left, String right) {}

    public static void testTokens() {
        Object o = new Named();
        System.out.println(o.getClass() + " " + o.getClass().getName() + " " + o.getClass().getSimpleName() + " " + Named.class.getSuperclass());
        System.out.println((o.getClass() == Named.class) + " " + (o.getClass() == Point.class) + " " + Point.class.isInstance(o) + " " + Point.class.isAssignableFrom(Named.class));
        System.out.println(int.class + " " + int[].class.getName() + " " + String[][].class.getSimpleName() + " " + List.class + " " + "s".getClass() + Integer.class);
        System.out.println(new int[0].getClass() + " " + new ArrayList<String>().getClass() + " " + new Named[0].getClass().getComponentType() + Runnable.class.isInterface());
        Object c = Named.class;
        System.out.println((c instanceof Class) + " " + c + " " + Named.class.equals(c) + " " + c.getClass());
    }

    public static void testClone() throws CloneNotSupportedException {
        Named named = new Named();
        named.name = "m";
        Point copy = named.clone();
        copy.tail[0] = 5;
        System.out.println(copy + " " + copy.getClass().getSimpleName() + " " + named.tail[0] + (copy != named));
        ArrayList<String> list = new ArrayList<>(List.of("a"));
        Object other = list.clone();
        System.out.println(other + " " + other.equals(list));
    }

    public static void testPrivate() {
        System.out.println(new Derived().both() + new Object() { String s = "anonymous"; }.s);
    }

    public static void testCasts() {
        Object o = "text";
        try {
            Integer i = (Integer) o;
            System.out.println(i);
        } catch (ClassCastException e) {
            System.out.println("cast");
        }
        Comparable<String> c = (Comparable<String>) o;
        CharSequence s = (CharSequence) o;
        System.out.println(c.compareTo("texts") + s.toString() + (o instanceof Comparable) + (new Object() instanceof Comparable) + (new int[0] instanceof Cloneable));
        try {
            Comparable<?> none = (Comparable<?>) new Object();
            System.out.println(none);
        } catch (ClassCastException e) {
            System.out.println("no comparable");
        }
        Comparable<?>[] many = {1, "two"};
        CharSequence[] texts = new String[] {"x"};
        System.out.println(many.length + texts[0].toString());
    }

    public static void testRecords() {
        System.out.println(new Pair(1, "r").right() + new Pair(1, "r").left());
    }

    public static void testInstance() throws Exception {
        System.out.println(Class.forName("Classes$Base").getSimpleName());
    }

    interface Shape {}

    static class Round implements Shape {}

    private static final class Oval extends Round implements java.io.Serializable {}

    /** Of these classes tokens alone are there. */
    public static void testNamedOnly() throws ClassNotFoundException {
        System.out.println(Oval.class.getSuperclass() + " " + Oval.class.getInterfaces().length + " " + java.lang.reflect.Modifier.toString(Oval.class.getModifiers()));
        System.out.println(java.lang.annotation.Retention.class.isAnnotation() + " " + (Class.forName("[LClasses$Round;") == Round[].class));
        for (String name : new String[] {"[", "[L;", "[[int", "int", "a[]"}) {
            try {
                System.out.println(Class.forName(name));
            } catch (ClassNotFoundException e) {
                System.out.println("none " + e.getMessage());
            }
        }
    }

    public static void testTypes() {
        java.lang.reflect.Type[] types = {String.class, Round.class};
        Object first = types[0];
        System.out.println(types[1].getTypeName() + (first instanceof java.lang.reflect.Type) + "x".equals(first));
    }
}
