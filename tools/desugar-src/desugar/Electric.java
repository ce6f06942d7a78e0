package desugar;

import java.io.IOException;
import java.nio.charset.StandardCharsets;
import java.nio.file.Path;
import java.util.ArrayList;
import java.util.List;
import java.util.Optional;
import java.util.regex.Matcher;
import java.util.regex.Pattern;

/** Runs suites by the program `electric`, and reads its reports. */
final class Electric {
    private static final Pattern TEST = Pattern.compile("test \\d+ (\\S+) (passed|failed|error)(?: ([^\"]\\S*))?(?: (\".*\"))? units (\\d+)");
    private static final Pattern QUOTED = Pattern.compile("\\\\(n|x[0-9a-f]{2}|u[0-9a-f]{4}|[\"\\\\])");

    /**
     * How a test ended.
     *
     * @param thrown the class of what it ended with; empty where it passed
     * @param out what it printed
     */
    record Outcome(String name, String verdict, String thrown, String message, long units, String out) {}

    /**
     * What a run of a suite said.
     *
     * @param fault the line of a refusal, without `electric: `; empty where there is a report
     */
    record Answer(List<Outcome> outcomes, Optional<String> fault) {}

    private final Path program;

    Electric(Path program) {
        this.program = program;
    }

    /** Runs all tests of the suite in a folder. */
    Answer run(Path folder) throws IOException, InterruptedException {
        Process process = new ProcessBuilder(program.toAbsolutePath().toString(), "run", SuiteFolder.TEXT, "-", "1", "all")
                .directory(folder.toFile())
                .redirectError(ProcessBuilder.Redirect.INHERIT)
                .start();
        process.getOutputStream().close();
        String text = new String(process.getInputStream().readAllBytes(), StandardCharsets.UTF_8);
        int status = process.waitFor();
        if (status == 0 || status == 1) {
            return new Answer(outcomes(text), Optional.empty());
        }
        String line = text.strip();
        return new Answer(List.of(), Optional.of(line.isEmpty() ? "exit status " + status : line.replaceFirst("^electric: ", "")));
    }

    private static List<Outcome> outcomes(String report) {
        List<Outcome> found = new ArrayList<>();
        for (String line : report.split("\n")) {
            Matcher test = TEST.matcher(line);
            if (test.matches()) {
                String thrown = test.group(3) == null ? "" : test.group(3);
                String message = test.group(4) == null ? "" : unquoted(test.group(4));
                found.add(new Outcome(test.group(1), test.group(2), thrown, message, Long.parseLong(test.group(5)), ""));
            } else if (line.startsWith("out ") && !found.isEmpty()) {
                Outcome last = found.remove(found.size() - 1);
                found.add(new Outcome(last.name(), last.verdict(), last.thrown(), last.message(), last.units(), unquoted(line.substring(4))));
            }
        }
        return found;
    }

    /** The text between quotes, with what backslashes stand for. */
    private static String unquoted(String quoted) {
        String inner = quoted.substring(1, quoted.length() - 1);
        return QUOTED.matcher(inner).replaceAll(found -> Matcher.quoteReplacement(letter(found.group(1))));
    }

    private static String letter(String escape) {
        return escape.equals("n") ? "\n" : escape.length() == 1 ? escape : String.valueOf((char) Integer.parseInt(escape.substring(1), 16));
    }
}
