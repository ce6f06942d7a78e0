package desugar;

import java.io.File;
import java.nio.file.Files;
import java.nio.file.Path;
import java.util.ArrayList;
import java.util.List;
import java.util.Optional;
import java.util.regex.Pattern;
import java.util.regex.PatternSyntaxException;

/** The words of a command line, read. */
final class CommandLine {
    static final String HELP = """
            use: desugar [OPTION..] CLASSES..
            Makes the JUnit tests of a project ones that electric runs: reads class files, and writes suites of the classes
            that the tests reach, and a report. CLASSES are folders and jars with the project's classes, main and test.

              --with PATHS       jars and folders of libraries, JUnit's among them, parted by `:`; may be given again
              --out FOLDER       where suites go: FOLDER/part1/s and so on, and FOLDER/report; `suite` where not given
              --tests PATTERN    only tests whose `class.method` the regular expression matches
              --budget UNITS     the units that a test may take; 20000000 where not given
              --warm             begin each suite with a test that initialises the classes that the others reach
              --electric PROGRAM the program that suites are run by, to find tests that meet what isn't served or
                                 pass their units, and to leave them out; crates/electric/out/electric where it is built
              --unmeasured       write the suites without a run: such tests stay in them, and print a line `##unserved ..`
              --against          run JUnit itself beside, and write each difference to FOLDER/differences
              --drop-differing   with --against: leave the tests that differ out
              --junit PATHS      JUnit's jars for --against; those of /usr/share/java where not given
              --help             this text

            Exit status: 0 when suites were written, 2 for words that aren't served, 1 for anything else that failed.
            docs/DESUGAR.md says what is changed, and what isn't served.""";

    /** Words that aren't served. */
    static final class Fault extends Exception {
        Fault(String message) {
            super(message);
        }
    }

    final List<Path> project = new ArrayList<>();
    final List<Path> libraries = new ArrayList<>();
    final List<Path> junit = new ArrayList<>();
    Path out = Path.of("suite");
    Pattern tests = Pattern.compile(".*");
    int budget = 20_000_000;
    boolean warm;
    boolean against;
    boolean dropDiffering;
    Optional<Path> electric = Optional.empty();
    boolean unmeasured;

    private CommandLine() {}

    /** Reads the words; fails with a Fault for those that aren't served. */
    static CommandLine read(String[] words) throws Fault {
        CommandLine read = new CommandLine();
        for (int i = 0; i < words.length; i++) {
            if (!words[i].startsWith("--")) {
                read.project.add(existing(words[i]));
            } else if (!read.flag(words[i])) {
                if (i + 1 == words.length) {
                    throw new Fault(words[i] + " isn't an option, or needs a word behind it");
                }
                read.option(words[i], words[++i]);
            }
        }
        if (read.project.isEmpty()) {
            throw new Fault("no classes were named");
        }
        return read;
    }

    private boolean flag(String word) {
        switch (word) {
            case "--warm" -> warm = true;
            case "--against" -> against = true;
            case "--drop-differing" -> dropDiffering = true;
            case "--unmeasured" -> unmeasured = true;
            default -> {
                return false;
            }
        }
        return true;
    }

    private void option(String word, String value) throws Fault {
        switch (word) {
            case "--with" -> paths(value, libraries);
            case "--junit" -> paths(value, junit);
            case "--out" -> out = Path.of(value);
            case "--tests" -> tests = pattern(value);
            case "--budget" -> budget = units(value);
            case "--electric" -> electric = Optional.of(existing(value));
            default -> throw new Fault(word + " isn't an option");
        }
    }

    private static void paths(String value, List<Path> to) throws Fault {
        for (String path : value.split(File.pathSeparator)) {
            if (!path.isEmpty()) {
                to.add(existing(path));
            }
        }
    }

    private static Path existing(String path) throws Fault {
        if (!Files.exists(Path.of(path))) {
            throw new Fault("there is no " + path);
        }
        return Path.of(path);
    }

    private static Pattern pattern(String value) throws Fault {
        try {
            return Pattern.compile(value);
        } catch (PatternSyntaxException fault) {
            throw new Fault("no regular expression: " + value);
        }
    }

    private static int units(String value) throws Fault {
        if (!value.matches("[1-9][0-9]{0,7}") || Integer.parseInt(value) > 1 << 26) {
            throw new Fault("no budget of 1 to 67108864 units: " + value);
        }
        return Integer.parseInt(value);
    }
}
