package desugar;

import java.util.ArrayList;
import java.util.List;
import java.util.Optional;
import org.objectweb.asm.Type;
import org.objectweb.asm.tree.AnnotationNode;

/** The lines of a `@CsvSource`: values parted by commas, quoted by `'`; an empty one that isn't quoted is null. */
final class CsvArguments {
    private final Type[] types;
    private final ArgumentConversion conversion;

    CsvArguments(Type[] types, ArgumentConversion conversion) {
        this.types = types;
        this.conversion = conversion;
    }

    /** The arguments of each line; empty where the annotation or a value asks for what isn't served. */
    Optional<List<Plan.Source>> of(AnnotationNode given) {
        for (int i = 0; i < given.values.size(); i += 2) {
            if (!given.values.get(i).equals("value") && !given.values.get(i).equals("delimiter")) {
                return Optional.empty();
            }
        }
        char delimiter = (Character) Annotations.value(given, "delimiter").orElse(',');
        List<Plan.Source> found = new ArrayList<>();
        for (Object line : Annotations.list(given, "value")) {
            Optional<List<Object>> values = values((String) line, delimiter);
            if (values.isEmpty()) {
                return Optional.empty();
            }
            found.add(new Plan.Literals(values.get()));
        }
        return Optional.of(found);
    }

    private Optional<List<Object>> values(String line, char delimiter) {
        List<String> fields = fields(line, delimiter);
        if (fields.size() < types.length) {
            return Optional.empty();
        }
        List<Object> values = new ArrayList<>();
        for (int i = 0; i < types.length; i++) {
            String field = fields.get(i);
            Optional<Object> value = field == null ? Optional.empty() : conversion.of(field, types[i]);
            if (field != null && value.isEmpty() || field == null && types[i].getSort() < Type.ARRAY) {
                return Optional.empty();
            }
            values.add(value.orElse(null));
        }
        return Optional.of(values);
    }

    private static List<String> fields(String line, char delimiter) {
        List<String> fields = new ArrayList<>();
        StringBuilder field = new StringBuilder();
        boolean quoted = false;
        boolean wasQuoted = false;
        for (int i = 0; i <= line.length(); i++) {
            char letter = i < line.length() ? line.charAt(i) : delimiter;
            if (i == line.length() || letter == delimiter && !quoted) {
                String text = wasQuoted ? field.toString() : field.toString().strip();
                fields.add(text.isEmpty() && !wasQuoted ? null : text);
                field.setLength(0);
                wasQuoted = false;
            } else if (letter == '\'' && quoted && i + 1 < line.length() && line.charAt(i + 1) == '\'') {
                field.append('\'');
                i++;
            } else if (letter == '\'' && (quoted || field.toString().isBlank())) {
                quoted = !quoted;
                wasQuoted = true;
                field.setLength(quoted ? 0 : field.length());
            } else if (!wasQuoted || quoted) {
                field.append(letter);
            }
        }
        return fields;
    }
}
