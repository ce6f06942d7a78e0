package desugar;

import static org.objectweb.asm.Opcodes.*;

import java.nio.charset.StandardCharsets;
import java.util.ArrayList;
import java.util.Comparator;
import java.util.List;
import java.util.Map;
import java.util.Set;
import java.util.SortedMap;
import java.util.TreeMap;
import java.util.TreeSet;
import java.util.function.Consumer;
import java.util.regex.Pattern;
import org.objectweb.asm.Type;
import org.objectweb.asm.tree.ClassNode;
import org.objectweb.asm.tree.InsnList;
import org.objectweb.asm.tree.InsnNode;
import org.objectweb.asm.tree.IntInsnNode;
import org.objectweb.asm.tree.JumpInsnNode;
import org.objectweb.asm.tree.LabelNode;
import org.objectweb.asm.tree.LdcInsnNode;
import org.objectweb.asm.tree.LookupSwitchInsnNode;
import org.objectweb.asm.tree.MethodInsnNode;
import org.objectweb.asm.tree.MethodNode;
import org.objectweb.asm.tree.TypeInsnNode;
import org.objectweb.asm.tree.VarInsnNode;

/**
 * Writes the bodies of the library's `Tables` for what is reached: the class of an array or built-in throwable, arrays by their class
 * token, and what is asked of tokens.
 */
final class Tables {
    private static final String STRINGS = "[Ljava/lang/String;";
    private static final String[] PRIMITIVE_ARRAYS = {"[I", "[J", "[C", "[B", "[S", "[Z"};

    /** The most bytes of a text that is a constant of a class file (JVMS 4.4.7). */
    private static final int MOST_TEXT = 65535;
    private static final Pattern ARRAY_TOKEN = Pattern.compile("class \\[+([ZCBSIJFD]|L[^;\\[]+;)");

    private final Hierarchy hierarchy;
    private final World world;
    private final Types types;
    private final Reach reach;
    private final List<String> arrays;
    private final SortedMap<String, String> tokens;
    private final SortedMap<String, String> named;
    private final Set<String> described;

    Tables(Hierarchy hierarchy, Reach reach) {
        this.hierarchy = hierarchy;
        this.world = hierarchy.world;
        this.types = new Types(world);
        this.reach = reach;
        this.arrays = arrayTypes();
        this.tokens = tokens();
        this.named = named();
        this.described = described();
    }

    /** Reference array types that are made or named, each before those that it is assignable to; that of String first, as most are. */
    private List<String> arrayTypes() {
        Set<String> found = new TreeSet<>(reach.arrays());
        found.add("[Ljava/lang/Object;");
        found.add(STRINGS);
        List<String> sorted = new ArrayList<>(found);
        sorted.removeIf(each -> each.length() == 2);
        Comparator<String> deepest = Comparator.comparing(each -> -each.lastIndexOf('['));
        sorted.sort(deepest.thenComparing(each -> -depth(each)).thenComparing(Comparator.naturalOrder()));
        sorted.remove(STRINGS);
        sorted.add(0, STRINGS);
        return sorted;
    }

    /** More than that of each type that the array is assignable to: Object last, then interfaces. */
    private int depth(String array) {
        String base = Types.base(array);
        if (base == null) {
            return Integer.MAX_VALUE;
        }
        if (base.equals(Library.FLOAT) || base.equals(Library.DOUBLE)) {
            return Integer.MAX_VALUE - 1;
        }
        if (base.equals(Builtins.OBJECT)) {
            return 0;
        }
        return world.isInterface(base) ? 1 + hierarchy.ancestors(base).size() : 1000 * world.depth(base) + hierarchy.ancestors(base).size();
    }

    /** Tokens of classes that are there, with the classes' names. */
    private SortedMap<String, String> tokens() {
        SortedMap<String, String> found = new TreeMap<>();
        for (String name : reach.made()) {
            for (String at : hierarchy.ancestors(name)) {
                found.put(hierarchy.tokenOf(at), at);
            }
        }
        for (String array : arrays) {
            String base = Types.base(array);
            if (base != null) {
                found.put(hierarchy.tokenOf(base), base);
            }
        }
        for (String token : reach.tokens()) {
            String name = token.substring(token.indexOf(' ') + 1).replace('.', '/');
            if (reach.mentioned().contains(name) && hierarchy.tokenOf(name).equals(token)) {
                hierarchy.ancestors(name).forEach(at -> found.put(hierarchy.tokenOf(at), at));
            }
        }
        for (String name : world.builtins.names()) {
            found.put("class " + Types.dotted(name), name);
        }
        return found;
    }

    /** The same, with the classes that tokens name and those above them, of which the suite may have none: what is told of them is text. */
    private SortedMap<String, String> named() {
        SortedMap<String, String> found = new TreeMap<>(tokens);
        for (String token : reach.tokens()) {
            String name = token.substring(token.indexOf(' ') + 1).replace('.', '/');
            if (!name.startsWith("[") && !name.contains(" ") && world.get(name) != null) {
                world.ancestors(name).forEach(at -> found.put(hierarchy.tokenOf(at), at));
            }
        }
        return found;
    }

    private String tokenOfType(Type type) {
        return types.token(Type.getType(Types.asInJava(type.getDescriptor())));
    }

    /** The class with the bodies of those methods that are reached; the others throw null. */
    ClassNode make() {
        ClassNode node = new ClassNode();
        hierarchy.node(Library.TABLES).accept(node);
        for (MethodNode method : node.methods) {
            if (method.name.equals("<init>")) {
                continue;
            }
            method.instructions.clear();
            method.tryCatchBlocks.clear();
            if (reach.reaches(Library.TABLES, method.name + method.desc)) {
                write(method);
            } else {
                method.instructions.add(new InsnNode(ACONST_NULL));
                method.instructions.add(new InsnNode(ATHROW));
            }
        }
        return node;
    }

    private void write(MethodNode method) {
        InsnList code = method.instructions;
        switch (method.name) {
            case "classOf":
                classOf(code);
                break;
            case "arrayLike":
                arrayLike(code);
                break;
            case "newArray":
                choose(code, newArrays());
                unserved(code, "array of a class that no reached code names");
                break;
            case "enumValues":
                choose(code, enums());
                nothing(code);
                break;
            case "isInstance":
                choose(code, instances());
                code.add(new InsnNode(ICONST_0));
                code.add(new InsnNode(IRETURN));
                break;
            case "superOf":
                choose(code, texts(this::superToken));
                nothing(code);
                break;
            case "interfacesOf":
                choose(code, texts(this::interfaceTokens));
                nothing(code);
                break;
            case "newInstance":
                choose(code, newInstances());
                unserved(code, "new instance of a class by reflection");
                break;
            case "modifiers":
                choose(code, modifiers());
                code.add(new InsnNode(ICONST_1));
                code.add(new InsnNode(IRETURN));
                break;
            case "members":
                choose(code, memberTables());
                nothing(code);
                break;
            case "invoke":
                choose(code, uses("invoke", Reflections.INVOKE, ALOAD, ALOAD));
                unserved(code, "call by reflection of a method that isn't the project's");
                break;
            case "construct":
                choose(code, uses("construct", Reflections.CONSTRUCT, ALOAD));
                unserved(code, "construction by reflection of a class that isn't the project's");
                break;
            case "get":
                choose(code, uses("get", Reflections.GET, ALOAD));
                unserved(code, "read by reflection of a field that isn't the project's");
                break;
            case "set":
                choose(code, uses("set", Reflections.SET, ALOAD, ALOAD));
                unserved(code, "write by reflection of a field that isn't the project's");
                break;
            case "byName":
                choose(code, byNames());
                nothing(code);
                break;
            default:
                throw new IllegalStateException("no table " + method.name);
        }
    }

    private static void nothing(InsnList code) {
        code.add(new InsnNode(ACONST_NULL));
        code.add(new InsnNode(ARETURN));
    }

    private static void unserved(InsnList code, String what) {
        code.add(new TypeInsnNode(NEW, Library.UNSERVED));
        code.add(new InsnNode(DUP));
        code.add(new LdcInsnNode(what));
        code.add(new MethodInsnNode(INVOKESPECIAL, Library.UNSERVED, "<init>", "(Ljava/lang/String;)V", false));
        code.add(new InsnNode(ATHROW));
    }

    /** Where the first argument has this type, the code; else what comes behind. */
    private static void where(InsnList code, String type, Consumer<InsnList> then) {
        LabelNode other = new LabelNode();
        code.add(new VarInsnNode(ALOAD, 0));
        code.add(new TypeInsnNode(INSTANCEOF, type));
        code.add(new JumpInsnNode(IFEQ, other));
        then.accept(code);
        code.add(other);
    }

    private void classOf(InsnList code) {
        for (String array : arrays) {
            where(code, array, then -> text(then, tokenOfType(Type.getType(array))));
        }
        for (String array : PRIMITIVE_ARRAYS) {
            where(code, array, then -> text(then, "class " + array));
        }
        List<String> throwables = new ArrayList<>(world.builtins.names());
        throwables.removeIf(each -> !world.builtins.isThrowable(each));
        throwables.sort(Comparator.comparing(each -> -world.depth(each)));
        for (String each : throwables) {
            where(code, each, then -> text(then, "class " + Types.dotted(each)));
        }
        where(code, "java/io/PrintStream", then -> text(then, "class java.io.PrintStream"));
        text(code, "class java.lang.Object");
    }

    private void arrayLike(InsnList code) {
        for (String array : arrays) {
            where(code, array, then -> {
                then.add(new VarInsnNode(ILOAD, 1));
                newArray(then, Type.getType(array.substring(1)));
                then.add(new InsnNode(ARETURN));
            });
        }
        nothing(code);
    }

    private static void text(InsnList code, String text) {
        code.add(new LdcInsnNode(text));
        code.add(new InsnNode(ARETURN));
    }

    private static void newArray(InsnList code, Type element) {
        if (element.getSort() >= Type.ARRAY) {
            code.add(new TypeInsnNode(ANEWARRAY, element.getInternalName()));
        } else {
            code.add(new IntInsnNode(NEWARRAY, List.of(T_BOOLEAN, T_CHAR, T_BYTE, T_SHORT, T_INT).contains(typeCode(element))
                    ? typeCode(element) : T_LONG));
        }
    }

    private static int typeCode(Type element) {
        switch (element.getSort()) {
            case Type.BOOLEAN:
                return T_BOOLEAN;
            case Type.CHAR:
                return T_CHAR;
            case Type.BYTE:
                return T_BYTE;
            case Type.SHORT:
                return T_SHORT;
            case Type.INT:
                return T_INT;
            default:
                return T_LONG;
        }
    }

    /** By the token of the element. */
    private SortedMap<String, Consumer<InsnList>> newArrays() {
        SortedMap<String, Consumer<InsnList>> cases = new TreeMap<>();
        List<String> all = new ArrayList<>(arrays);
        all.addAll(List.of(PRIMITIVE_ARRAYS));
        for (String array : all) {
            Type element = Type.getType(array.substring(1));
            cases.put(tokenOfType(element), code -> make(code, element));
        }
        for (String name : Types.OF_STRING) {
            cases.put(hierarchy.tokenOf(name), code -> make(code, Type.getObjectType(Builtins.OBJECT)));
        }
        cases.put("class java.lang.Class", code -> make(code, Type.getObjectType(Builtins.STRING)));
        for (Map.Entry<String, String> each : tokens.entrySet()) {
            cases.putIfAbsent(each.getKey(), code -> make(code, Type.getObjectType(each.getValue())));
        }
        return cases;
    }

    private static void make(InsnList code, Type element) {
        code.add(new VarInsnNode(ILOAD, 1));
        newArray(code, element);
        code.add(new InsnNode(ARETURN));
    }

    private SortedMap<String, Consumer<InsnList>> enums() {
        SortedMap<String, Consumer<InsnList>> cases = new TreeMap<>();
        tokens.forEach((token, name) -> {
            String descriptor = "()[L" + name + ";";
            if (reach.reaches(name, "values" + descriptor)) {
                cases.put(token, code -> {
                    code.add(new MethodInsnNode(INVOKESTATIC, name, "values", descriptor, false));
                    code.add(new InsnNode(ARETURN));
                });
            }
        });
        return cases;
    }

    private SortedMap<String, Consumer<InsnList>> instances() {
        SortedMap<String, Consumer<InsnList>> cases = new TreeMap<>();
        tokens.forEach((token, name) -> cases.put(token, code -> instance(code, name)));
        for (String array : arrays) {
            cases.put(tokenOfType(Type.getType(array)), code -> instance(code, array));
        }
        cases.put("class [Ljava.lang.Object;", code -> ask(code, "isObjectArray"));
        cases.put("class [Ljava.lang.Class;", code -> instance(code, "[Ljava/lang/String;"));
        for (String name : Types.OF_STRING) {
            cases.put("class [L" + Types.dotted(name) + ";", code -> ask(code, "isObjectArray"));
        }
        for (String array : PRIMITIVE_ARRAYS) {
            cases.put("class " + array, code -> instance(code, array));
        }
        cases.put("class java.lang.String", code -> ask(code, "isText"));
        cases.put("class java.lang.Class", code -> ask(code, "isClass"));
        for (String name : List.of("java/lang/Comparable", "java/lang/CharSequence", "java/io/Serializable", "java/lang/Cloneable", Types.TYPE)) {
            cases.put(hierarchy.tokenOf(name), code -> ask(code, "is" + name.substring(name.lastIndexOf('/') + 1)));
        }
        return cases;
    }

    private static void instance(InsnList code, String type) {
        code.add(new VarInsnNode(ALOAD, 1));
        code.add(new TypeInsnNode(INSTANCEOF, type));
        code.add(new InsnNode(IRETURN));
    }

    private static void ask(InsnList code, String name) {
        code.add(new VarInsnNode(ALOAD, 1));
        code.add(new MethodInsnNode(INVOKESTATIC, Library.HELPERS + "ObjectHelpers", name, "(Ljava/lang/Object;)Z", false));
        code.add(new InsnNode(IRETURN));
    }

    private interface Text {
        String of(String name);
    }

    private SortedMap<String, Consumer<InsnList>> texts(Text text) {
        SortedMap<String, Consumer<InsnList>> cases = new TreeMap<>();
        named.forEach((token, name) -> {
            String given = text.of(name);
            if (given != null) {
                cases.put(token, code -> text(code, given));
            }
        });
        return cases;
    }

    private String superToken(String name) {
        String above = Throwables.isOne(name) ? world.builtins.superOf(world.superOf(name)) : world.superOf(name);
        return above == null || world.isInterface(name) ? null : hierarchy.tokenOf(above);
    }

    private String interfaceTokens(String name) {
        ClassNode node = world.get(name);
        if (name.equals(Builtins.STRING)) {
            return "interface java.io.Serializable,interface java.lang.Comparable,interface java.lang.CharSequence";
        }
        if (node == null || node.interfaces.isEmpty()) {
            return null;
        }
        return String.join(",", node.interfaces.stream().map(each -> "interface " + Types.dotted(each)).toArray(String[]::new));
    }

    private SortedMap<String, Consumer<InsnList>> newInstances() {
        SortedMap<String, Consumer<InsnList>> cases = new TreeMap<>();
        tokens.forEach((token, name) -> {
            if (name.equals(Builtins.OBJECT) || reach.reaches(name, "<init>()V")) {
                cases.put(token, code -> {
                    code.add(new TypeInsnNode(NEW, name));
                    code.add(new InsnNode(DUP));
                    code.add(new MethodInsnNode(INVOKESPECIAL, name, "<init>", "()V", false));
                    code.add(new InsnNode(ARETURN));
                });
            }
        });
        return cases;
    }

    private SortedMap<String, Consumer<InsnList>> modifiers() {
        SortedMap<String, Consumer<InsnList>> cases = new TreeMap<>();
        named.forEach((token, name) -> {
            ClassNode node = world.get(name);
            if (node != null) {
                cases.put(token, code -> {
                    code.add(new LdcInsnNode(flags(node) & ~(ACC_SUPER | ACC_DEPRECATED)));
                    code.add(new InsnNode(IRETURN));
                });
            }
        });
        return cases;
    }

    /** The flags of the class as its source has them, where it stands in another one (JVMS 4.7.6); else those of the class file. */
    private static int flags(ClassNode node) {
        return node.innerClasses.stream().filter(each -> each.name.equals(node.name)).map(each -> each.access).findFirst().orElse(node.access);
    }

    /** Classes whose members are told: those of the project and its jars, and those above them. */
    private Set<String> described() {
        Set<String> found = new TreeSet<>();
        for (String name : tokens.values()) {
            if (world.originOf(name) == World.Origin.PROJECT) {
                found.addAll(hierarchy.ancestors(name));
            }
        }
        return found;
    }

    private SortedMap<String, Consumer<InsnList>> memberTables() {
        SortedMap<String, Consumer<InsnList>> cases = new TreeMap<>();
        for (String name : described) {
            String table = members(name);
            if (table != null) {
                cases.put(hierarchy.tokenOf(name), code -> text(code, table));
            }
        }
        return cases;
    }

    private String members(String name) {
        String table = world.asItStands(name).map(node -> new Reflections(node).table(types)).orElse("");
        return table.getBytes(StandardCharsets.UTF_8).length > MOST_TEXT ? null : table;
    }

    /** Calls of the class beside a class of the project, which uses its members. */
    private SortedMap<String, Consumer<InsnList>> uses(String use, String descriptor, int... loads) {
        SortedMap<String, Consumer<InsnList>> cases = new TreeMap<>();
        for (String name : described) {
            String beside = name + Reflections.SUFFIX;
            if (reach.reaches(beside, use + descriptor)) {
                cases.put(hierarchy.tokenOf(name), code -> {
                    code.add(new VarInsnNode(ILOAD, 1));
                    for (int i = 0; i < loads.length; i++) {
                        code.add(new VarInsnNode(loads[i], 2 + i));
                    }
                    code.add(new MethodInsnNode(INVOKESTATIC, beside, use, descriptor, false));
                    code.add(new InsnNode(use.equals("set") ? RETURN : ARETURN));
                });
            }
        }
        return cases;
    }

    private SortedMap<String, Consumer<InsnList>> byNames() {
        SortedMap<String, Consumer<InsnList>> cases = new TreeMap<>();
        if (reach.reaches(Library.TABLES, "members(Ljava/lang/String;)Ljava/lang/String;")) {
            for (String name : described) {
                String table = members(name);
                for (String token : table == null ? new String[0] : table.split("[\\n,|]")) {
                    if (token.startsWith("class ") || token.startsWith("interface ")) {
                        cases.put(token.substring(token.indexOf(' ') + 1), code -> text(code, token));
                    }
                }
            }
        }
        for (String array : arrays) {
            String token = tokenOfType(Type.getType(array));
            cases.put(token.substring(token.indexOf(' ') + 1), code -> text(code, token));
        }
        for (String array : PRIMITIVE_ARRAYS) {
            cases.put(array, code -> text(code, "class " + array));
        }
        for (String token : reach.tokens()) {
            if (ARRAY_TOKEN.matcher(token).matches()) {
                cases.put(token.substring(token.indexOf(' ') + 1), code -> text(code, token));
            }
        }
        named.keySet().forEach(token -> cases.put(token.substring(token.indexOf(' ') + 1), code -> text(code, token)));
        return cases;
    }

    /** A switch on the text of the first argument, as javac makes it: by its hash code, then by `equals`. */
    private static void choose(InsnList code, SortedMap<String, Consumer<InsnList>> cases) {
        if (cases.isEmpty()) {
            return;
        }
        TreeMap<Integer, List<String>> byHash = new TreeMap<>();
        cases.keySet().forEach(text -> byHash.computeIfAbsent(text.hashCode(), each -> new ArrayList<>()).add(text));
        LabelNode none = new LabelNode();
        int[] hashes = byHash.keySet().stream().mapToInt(each -> each).toArray();
        LabelNode[] labels = new LabelNode[hashes.length];
        for (int i = 0; i < labels.length; i++) {
            labels[i] = new LabelNode();
        }
        code.add(new VarInsnNode(ALOAD, 0));
        code.add(new MethodInsnNode(INVOKEVIRTUAL, Builtins.STRING, "hashCode", "()I", false));
        code.add(new LookupSwitchInsnNode(none, hashes, labels));
        int at = 0;
        for (List<String> texts : byHash.values()) {
            code.add(labels[at++]);
            for (String text : texts) {
                LabelNode other = new LabelNode();
                code.add(new LdcInsnNode(text));
                code.add(new VarInsnNode(ALOAD, 0));
                code.add(new MethodInsnNode(INVOKEVIRTUAL, Builtins.STRING, "equals", "(Ljava/lang/Object;)Z", false));
                code.add(new JumpInsnNode(IFEQ, other));
                cases.get(text).accept(code);
                code.add(other);
            }
            code.add(new JumpInsnNode(GOTO, none));
        }
        code.add(none);
    }
}
