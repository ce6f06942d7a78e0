import java.util.regex.Matcher;
import java.util.regex.Pattern;

/** Formats and regular expressions. */
public class Formats {
    public static void testFormat() {
        System.out.println(String.format("%d|%5d|%-5d|%05d|%,d|%x|%X|%o|%+d", 42, 42, 42, 42, 1234567, 255, 255, 8, 5));
        System.out.println(String.format("%s|%10s|%-10s|%.2s|%S|%c|%b|%%|%n", "abc", "abc", "abc", "abc", "abc", 'x', true).trim());
        System.out.println(String.format("%2$s %1$s %s", "a", "b") + String.format("%h", "hi"));
    }

    public static void testFloats() {
        System.out.println(String.format("%.2f|%8.3f|%e|%g|%.0f|%,.2f", 3.14159, 2.5, 12345.678, 0.0001234, 2.5, 1234567.891));
    }

    public static void testRegex() {
        Matcher m = Pattern.compile("(\\w+)@(\\w+)\\.com").matcher("joe@site.com, ann@home.com");
        while (m.find()) {
            System.out.println(m.group(1) + " at " + m.group(2) + " " + m.start());
        }
        System.out.println("a1b22c".replaceAll("[0-9]+", "#") + "x.y.z".split("\\.").length + "AbC".matches("(?i)abc") + "aXbX".replaceFirst("X", "\\$"));
        System.out.println("one  two".split("\\s+")[1] + Pattern.quote("a.b") + Pattern.compile("b*").matcher("abb").replaceAll("-"));
    }

    public static void testNumberFormats() throws Exception {
        System.out.println(new java.text.DecimalFormat("#,##0.00").format(1234.567) + " " + java.text.NumberFormat.getInstance(java.util.Locale.US).format(1234567.8915));
        System.out.println(java.text.NumberFormat.getPercentInstance(java.util.Locale.US).format(0.25) + " " + java.text.NumberFormat.getInstance(java.util.Locale.US).parse("12.5"));
        System.out.println(java.text.MessageFormat.format("{0} of {1}", "one", 2));
        java.text.SimpleDateFormat format = new java.text.SimpleDateFormat("yyyy-MM-dd HH:mm:ss EEE", java.util.Locale.US);
        format.setTimeZone(java.util.TimeZone.getTimeZone("UTC"));
        System.out.println(format.format(new java.util.Date(1700000000000L)) + " " + format.parse("2024-02-29 01:02:03 Thu").getTime());
    }
}
