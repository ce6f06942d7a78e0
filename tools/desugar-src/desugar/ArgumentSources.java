package desugar;

import java.util.ArrayList;
import java.util.List;
import java.util.Optional;
import org.objectweb.asm.Opcodes;
import org.objectweb.asm.Type;
import org.objectweb.asm.tree.AnnotationNode;
import org.objectweb.asm.tree.ClassNode;
import org.objectweb.asm.tree.FieldNode;

/** Where the arguments of a `@ParameterizedTest` come from: constants of annotations, or methods that the test class names. */
final class ArgumentSources {
    private static final String PROVIDER = "org/junit/jupiter/params/provider/";

    /** The sources of a test in the order of its annotations, or the first fault. */
    record Answer(List<Plan.Source> sources, Optional<FoundTest.Unserved> fault) {}

    private static final class Refused extends Exception {
        private final String remedy;

        Refused(String why, String remedy) {
            super(why);
            this.remedy = remedy;
        }
    }

    private final ClassPath path;
    private final Inheritance inheritance;
    private final ArgumentConversion conversion;

    ArgumentSources(ClassPath path, Inheritance inheritance) {
        this.path = path;
        this.inheritance = inheritance;
        this.conversion = new ArgumentConversion(path);
    }

    Answer of(ClassNode node, Inheritance.Member test, Annotations annotations, int on) {
        Type[] types = Type.getArgumentTypes(test.method().desc);
        List<Plan.Source> found = new ArrayList<>();
        try {
            refuseConverters(test);
            for (String name : annotations.names()) {
                if (name.startsWith(PROVIDER) && !name.startsWith(PROVIDER + "ArgumentsSource")) {
                    found.addAll(source(node, test, types, name.substring(PROVIDER.length()), annotations.get(name).orElseThrow(), on));
                }
            }
            if (found.isEmpty()) {
                throw new Refused("arguments of a source of the project's own", "@MethodSource");
            }
            return new Answer(found, Optional.empty());
        } catch (Refused refused) {
            return new Answer(List.of(), Optional.of(new FoundTest.Unserved(refused.getMessage(), refused.remedy)));
        }
    }

    private static void refuseConverters(Inheritance.Member test) throws Refused {
        List<AnnotationNode>[] ofParameters = test.method().visibleParameterAnnotations;
        for (int i = 0; ofParameters != null && i < ofParameters.length; i++) {
            if (ofParameters[i] != null && !ofParameters[i].isEmpty()) {
                throw new Refused("an argument with an annotation", "a conversion in the test");
            }
        }
    }

    private List<Plan.Source> source(ClassNode node, Inheritance.Member test, Type[] types, String kind, AnnotationNode given, int on)
            throws Refused {
        switch (kind) {
            case "ValueSource":
                return values(types, given);
            case "NullSource":
                return one(types, null);
            case "EmptySource":
                return one(types, empty(types));
            case "NullAndEmptySource":
                List<Plan.Source> both = new ArrayList<>(one(types, null));
                both.addAll(one(types, empty(types)));
                return both;
            case "EnumSource":
                return enums(types, given);
            case "CsvSource":
                return new CsvArguments(types, conversion).of(given).orElseThrow(() -> new Refused("these values of @CsvSource", "@MethodSource"));
            case "MethodSource":
                return methods(node, test, given, on);
            default:
                throw new Refused("@" + kind, "@MethodSource");
        }
    }

    private static List<Plan.Source> one(Type[] types, Object value) throws Refused {
        if (types.length != 1) {
            throw new Refused("a source of one argument for several", "@MethodSource");
        }
        List<Object> values = new ArrayList<>();
        values.add(value);
        return List.of(new Plan.Literals(values));
    }

    private List<Plan.Source> values(Type[] types, AnnotationNode given) throws Refused {
        List<Plan.Source> found = new ArrayList<>();
        for (int i = 0; given.values != null && i < given.values.size(); i += 2) {
            for (Object value : Annotations.list(given, (String) given.values.get(i))) {
                Object converted = conversion.of(value, types.length == 0 ? null : types[0])
                        .orElseThrow(() -> new Refused("the conversion of a value of @ValueSource", "a value of the argument's type"));
                found.addAll(one(types, converted));
            }
        }
        return found;
    }

    private static Object empty(Type[] types) throws Refused {
        if (types.length == 1 && types[0].getSort() == Type.ARRAY) {
            return new Plan.Made(new MethodRef("", "", types[0].getDescriptor()), false);
        }
        String descriptor = types.length == 1 ? types[0].getDescriptor() : "";
        switch (descriptor) {
            case "Ljava/lang/String;":
                return "";
            case "Ljava/util/List;":
            case "Ljava/util/Set;":
            case "Ljava/util/Map;":
                String name = "empty" + descriptor.substring("Ljava/util/".length(), descriptor.length() - 1);
                return new Plan.Made(new MethodRef("java/util/Collections", name, "()" + descriptor), false);
            default:
                throw new Refused("@EmptySource for this type", "@MethodSource");
        }
    }

    private List<Plan.Source> enums(Type[] types, AnnotationNode given) throws Refused {
        Type type = Annotations.value(given, "value").map(value -> (Type) value).orElse(types.length == 0 ? Type.VOID_TYPE : types[0]);
        Optional<ClassNode> owner = type.getSort() == Type.OBJECT ? path.find(type.getInternalName()) : Optional.empty();
        if (owner.isEmpty() || (owner.get().access & Opcodes.ACC_ENUM) == 0) {
            throw new Refused("@EnumSource of what is no enum", "@MethodSource");
        }
        List<?> names = Annotations.list(given, "names");
        String mode = Annotations.value(given, "mode").map(value -> ((String[]) value)[1]).orElse("INCLUDE");
        List<Plan.Source> found = new ArrayList<>();
        for (FieldNode field : owner.get().fields) {
            if ((field.access & Opcodes.ACC_ENUM) != 0 && takes(mode, names, field.name)) {
                found.addAll(one(types, new Plan.EnumConstant(type.getInternalName(), field.name)));
            }
        }
        return found;
    }

    private static boolean takes(String mode, List<?> names, String name) throws Refused {
        switch (mode) {
            case "INCLUDE":
                return names.isEmpty() || names.contains(name);
            case "EXCLUDE":
                return !names.contains(name);
            case "MATCH_ALL":
                return names.stream().allMatch(pattern -> name.matches((String) pattern));
            case "MATCH_ANY":
                return names.stream().anyMatch(pattern -> name.matches((String) pattern));
            default:
                throw new Refused("@EnumSource with mode " + mode, "@MethodSource");
        }
    }

    private List<Plan.Source> methods(ClassNode node, Inheritance.Member test, AnnotationNode given, int on) throws Refused {
        List<Plan.Source> found = new ArrayList<>();
        List<?> names = Annotations.list(given, "value");
        for (Object name : names.isEmpty() ? List.of("") : names) {
            found.add(provider(node, name.equals("") ? test.method().name : (String) name, on));
        }
        return found;
    }

    private Plan.Source provider(ClassNode node, String name, int on) throws Refused {
        String called = name.contains("(") ? name.substring(0, name.indexOf('(')) : name;
        int hash = called.indexOf('#');
        Optional<ClassNode> owner = hash < 0 ? Optional.of(node) : path.find(called.substring(0, hash).replace('.', '/'));
        String method = called.substring(hash + 1);
        Inheritance.Member found = owner.stream()
                .flatMap(from -> inheritance.fromAbove(from).stream())
                .filter(member -> member.method().name.equals(method) && member.method().desc.startsWith("()"))
                .findFirst()
                .orElseThrow(() -> new Refused("@MethodSource(\"" + name + "\")", "a static method without arguments of this name"));
        return new Plan.Provided(found.ref(), found.is(Opcodes.ACC_STATIC) ? -1 : on, found.ofInterface());
    }
}
