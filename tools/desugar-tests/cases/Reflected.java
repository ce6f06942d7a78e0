import java.lang.reflect.Constructor;
import java.lang.reflect.Field;
import java.lang.reflect.InvocationTargetException;
import java.lang.reflect.Method;
import java.lang.reflect.Modifier;

/** Members by reflection, of the project's own classes. */
public class Reflected {
    public static class Bean {
        public int number = 3;
        private String name = "n";
        public static double shared = 1.5;

        public Bean() {}

        public Bean(int number, String name) {
            this.number = number;
            this.name = name;
        }

        public int add(int more) {
            return number + more;
        }

        public static String twice(String text, double d) {
            return text + text + d;
        }

        private boolean hidden() {
            return true;
        }

        public void fails() {
            throw new IllegalStateException("fails");
        }

        @Override
        public String toString() {
            return name + number;
        }
    }

    public static class Below extends Bean {
        public String own() {
            return "own";
        }
    }

    public static void testMethods() throws Exception {
        Method add = Bean.class.getMethod("add", int.class);
        System.out.println(add.invoke(new Bean(), 4) + " " + add + " " + add.getReturnType() + Modifier.isPublic(add.getModifiers()));
        System.out.println(Bean.class.getMethod("twice", String.class, double.class).invoke(null, "x", 2.5));
        Method hidden = Bean.class.getDeclaredMethod("hidden");
        hidden.setAccessible(true);
        System.out.println(hidden.invoke(new Below()) + " " + Below.class.getMethod("add", int.class).invoke(new Below(), 1) + Below.class.getDeclaredMethods().length);
        try {
            Bean.class.getMethod("fails").invoke(new Bean());
        } catch (InvocationTargetException e) {
            System.out.println(e.getCause() + " " + e.getTargetException().getMessage());
        }
        try {
            Bean.class.getMethod("none", String.class);
        } catch (NoSuchMethodException e) {
            System.out.println(e.getMessage());
        }
    }

    public static void testConstructors() throws Exception {
        Constructor<Bean> made = Bean.class.getConstructor(int.class, String.class);
        System.out.println(made.newInstance(7, "seven") + " " + made + " " + Bean.class.getConstructors().length + Below.class.newInstance().own());
        Object o = Class.forName("Reflected$Bean").getDeclaredConstructor().newInstance();
        System.out.println(o);
    }

    public static void testFields() throws Exception {
        Bean bean = new Bean();
        Field name = Bean.class.getDeclaredField("name");
        try {
            Field number = Bean.class.getField("number");
            number.set(bean, 9);
            System.out.println(number.get(bean) + " " + number.getType() + " " + number);
            name.setAccessible(true);
            name.set(bean, "changed");
            System.out.println(bean + " " + Bean.class.getField("shared").get(null) + Bean.class.getDeclaredFields().length);
            number.set(bean, "text");
        } catch (IllegalArgumentException e) {
            System.out.println("refused");
        }
    }

    public static void testAccess() throws Exception {
        ReflectedBeside beside = new ReflectedBeside();
        System.out.println(ReflectedBeside.class.getDeclaredField("near").get(beside) + " " + ReflectedBeside.class.getDeclaredField("kept").get(beside));
        try {
            ReflectedBeside.class.getDeclaredField("hidden").get(beside);
        } catch (IllegalAccessException e) {
            System.out.println("hidden");
        }
        System.out.println(Bean.class.getDeclaredField("name").get(new Bean()));
        Method risky = ReflectedBeside.class.getDeclaredMethod("risky");
        System.out.println(risky + " " + risky.getExceptionTypes().length);
    }
}

class ReflectedBeside {
    private int hidden = 1;
    int near = 2;
    protected int kept = 3;

    void risky() throws java.io.IOException, IllegalStateException {}
}
