/** Strings and builders. */
public class Texts {
    public static void testConcat() {
        int n = 42;
        Object o = "x";
        System.out.println("n=" + n + " o=" + o + " c=" + 'c' + " l=" + 5L + " b=" + true + " null=" + null);
    }

    public static void testMembers() {
        String s = "  Hello, World  ";
        System.out.println(s.trim() + "|" + s.indexOf('o') + "|" + s.indexOf("World") + "|" + s.lastIndexOf('l') + "|" + s.contains("llo"));
        System.out.println(s.toUpperCase() + s.toLowerCase() + s.replace('l', 'L') + s.replace("World", "all"));
        System.out.println("abc".replace("", "-") + "a,b,,c,,".split(",").length + " " + "b".compareTo("a") + "a".compareToIgnoreCase("B"));
        System.out.println(String.join("/", "a", "b", "c") + String.valueOf(new char[] {'x', 'y'}) + new String(new char[] {'q'}));
    }

    public static void testBuilder() {
        StringBuilder b = new StringBuilder("abc");
        b.append(1).append('c').append("def").append(2L).append(true).insert(0, "<").reverse().setCharAt(0, '!');
        b.deleteCharAt(1).delete(0, 2).replace(0, 1, "RR");
        System.out.println(b + " " + b.length() + " " + b.indexOf("c"));
        StringBuffer f = new StringBuffer();
        f.append("x").append(1);
        System.out.println(f.toString());
    }

    public static void testSequences() {
        CharSequence s = "abc";
        CharSequence b = new StringBuilder("de");
        Comparable<String> c = "abc";
        Object o = s;
        System.out.println(s.length() + b.length() + " " + s.charAt(1) + b.subSequence(0, 1) + c.compareTo("abd"));
        System.out.println((o instanceof CharSequence) + " " + (o instanceof Comparable) + " " + (o instanceof java.io.Serializable) + " " + (b instanceof Comparable));
    }
}
