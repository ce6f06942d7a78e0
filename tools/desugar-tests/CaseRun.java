package desugar;

import java.io.ByteArrayOutputStream;
import java.io.PrintStream;
import java.lang.reflect.InvocationTargetException;
import java.lang.reflect.Method;
import java.net.URL;
import java.net.URLClassLoader;
import java.nio.charset.StandardCharsets;
import java.nio.file.Path;
import java.util.List;
import org.objectweb.asm.Opcodes;
import org.objectweb.asm.tree.MethodNode;

/** Runs the static methods `test..` of the classes in a folder on this JVM: `CaseRun CLASSES`. Writes lines as those of a report. */
final class CaseRun {
    private CaseRun() {}

    public static void main(String[] words) throws Exception {
        Path classes = Path.of(words[0]);
        ClassPath path = new ClassPath(List.of(classes), List.of());
        PrintStream report = System.out;
        try (URLClassLoader loader = new URLClassLoader(new URL[] {classes.toUri().toURL()})) {
            for (String name : path.projectClasses()) {
                for (MethodNode method : path.find(name).orElseThrow().methods) {
                    if ((method.access & Opcodes.ACC_STATIC) != 0 && method.name.startsWith("test") && method.desc.equals("()V")) {
                        Class<?> type = loader.loadClass(name.replace('/', '.'));
                        run(type.getDeclaredMethod(method.name), report);
                    }
                }
            }
        }
    }

    private static void run(Method method, PrintStream report) throws IllegalAccessException {
        ByteArrayOutputStream written = new ByteArrayOutputStream();
        System.setOut(new PrintStream(written, true, StandardCharsets.UTF_8));
        method.setAccessible(true);
        String verdict = "passed";
        try {
            method.invoke(null);
        } catch (InvocationTargetException failure) {
            Throwable thrown = failure.getCause();
            verdict = (thrown instanceof AssertionError ? "failed " : "error ") + thrown.getClass().getName();
        }
        report.println(method.getDeclaringClass().getName() + "." + method.getName() + " " + verdict);
        if (written.size() > 0) {
            report.println("out \"" + quoted(written.toByteArray()) + "\"");
        }
    }

    private static String quoted(byte[] bytes) {
        StringBuilder text = new StringBuilder();
        for (byte each : bytes) {
            if (each == '\n') {
                text.append("\\n");
            } else if (each == '"' || each == '\\') {
                text.append('\\').append((char) each);
            } else if (each >= ' ' && each < 127) {
                text.append((char) each);
            } else {
                text.append(String.format("\\x%02x", each));
            }
        }
        return text.toString();
    }
}
