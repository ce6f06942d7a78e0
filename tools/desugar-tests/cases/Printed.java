import java.io.ByteArrayInputStream;
import java.io.ByteArrayOutputStream;
import java.io.IOException;
import java.io.InputStreamReader;
import java.io.OutputStreamWriter;
import java.io.PrintStream;
import java.io.PrintWriter;
import java.io.StringWriter;
import java.nio.charset.StandardCharsets;

/** Streams that are printed to, and encodings. */
public class Printed {
    public static void testCapture() {
        PrintStream before = System.out;
        ByteArrayOutputStream bytes = new ByteArrayOutputStream();
        System.setOut(new PrintStream(bytes));
        System.out.println("caught " + 1.5);
        System.out.printf("%d-%s%n", 5, "x");
        System.setOut(before);
        System.out.print("[" + bytes.toString().trim() + "]");
        System.out.println('c');
        System.out.println(new char[] {'a', 'b'});
        System.out.println((Object) null);
    }

    public static void testWriters() throws IOException {
        StringWriter text = new StringWriter();
        PrintWriter writer = new PrintWriter(text);
        writer.printf("%s %.1f", "w", 2.25);
        writer.flush();
        ByteArrayOutputStream bytes = new ByteArrayOutputStream();
        OutputStreamWriter encoded = new OutputStreamWriter(bytes, StandardCharsets.UTF_8);
        encoded.write("h\u00e9\u20ac");
        encoded.close();
        InputStreamReader reader = new InputStreamReader(new ByteArrayInputStream(bytes.toByteArray()), "UTF-8");
        System.out.println(text + " " + bytes.size() + " " + (char) reader.read() + (int) reader.read() + " " + (int) reader.read() + reader.read());
    }

    public static void testBytes() {
        System.out.println("a\u00e9".getBytes(StandardCharsets.UTF_8).length + " " + new String(new byte[] {(byte) 0xc3, (byte) 0xa9, 65}, StandardCharsets.UTF_8).length());
        System.out.println(java.util.Base64.getEncoder().encodeToString("hello".getBytes(StandardCharsets.US_ASCII)) + " " + new String(java.util.Base64.getDecoder().decode("aGVsbG8=")));
    }

    public static void testScanned() {
        java.util.Scanner scanner = new java.util.Scanner("12 word\nnext line 3.5");
        System.out.println(scanner.nextInt() + scanner.next() + scanner.nextLine() + "|" + scanner.nextLine() + scanner.hasNext());
        java.nio.CharBuffer buffer = java.nio.CharBuffer.allocate(4);
        buffer.put("abc").flip();
        System.out.println(buffer + " " + buffer.get() + buffer.remaining() + buffer.length());
    }
}
