package desugar;

import static org.objectweb.asm.Opcodes.ACC_ABSTRACT;
import static org.objectweb.asm.Opcodes.ACC_INTERFACE;
import static org.objectweb.asm.Opcodes.ACC_PUBLIC;
import static org.objectweb.asm.Opcodes.ACC_STATIC;
import static org.objectweb.asm.Opcodes.GOTO;
import static org.objectweb.asm.Opcodes.INVOKESTATIC;
import static org.objectweb.asm.Opcodes.POP;
import static org.objectweb.asm.Opcodes.RETURN;
import static org.objectweb.asm.Opcodes.V1_8;

import java.nio.file.Path;
import java.util.ArrayList;
import java.util.Collection;
import java.util.Comparator;
import java.util.List;
import java.util.Map;
import java.util.Set;
import java.util.SortedMap;
import java.util.SortedSet;
import java.util.TreeMap;
import java.util.TreeSet;
import java.util.function.Predicate;
import org.objectweb.asm.tree.ClassNode;
import org.objectweb.asm.tree.InsnList;
import org.objectweb.asm.tree.InsnNode;
import org.objectweb.asm.tree.JumpInsnNode;
import org.objectweb.asm.tree.LabelNode;
import org.objectweb.asm.tree.MethodInsnNode;
import org.objectweb.asm.tree.MethodNode;
import org.objectweb.asm.tree.TryCatchBlockNode;

/**
 * Makes classes of a project, of its jars and of the JDK at hand ones of the subset, and follows what roots reach.
 *
 * <p>Use: `add` generated classes, whose code is that of any Java class; `reach` for roots (static methods `()V`, most often of these);
 * `write` what was reached. `reach` may be asked as often as one likes: classes are rewritten once.
 *
 * <p>Mark: each cut that a test meets prints a line that begins with {@link #MARK}, before it throws. A handler that catches a
 * `NoClassDefFoundError` after a cut prints it too, as the class's initialiser may have met a cut in an earlier test.
 *
 * <p>Classes of the JDK and of the library come out whole and the same for every suite, or as stubs where none of their code runs; those
 * of the project and its jars with the methods that are reached.
 */
final class Rewriter {
    /** What the line begins with that a test prints where it meets what isn't served. */
    static final String MARK = "##unserved ";

    /** Packages of the JDK with so many small classes that their code is written by what is reached. */
    private static final List<String> LEAN = List.of("java/util/stream/", "java/util/regex/");

    private static final int MOST_CLASSES = 1024;

    private final World world;
    private final Hierarchy hierarchy;
    private final ClassFiles files;

    /**
     * @param path the classes of the project and of its jars
     * @param library the folder with the compiled helper classes
     */
    Rewriter(ClassPath path, Path library) {
        this.world = new World(path, new Library(library));
        this.hierarchy = new Hierarchy(world);
        this.files = new ClassFiles(world);
    }

    /** Takes a generated class, which refers to classes of the path as they stand there. */
    void add(ClassNode generated) {
        world.define(generated, World.Origin.PROJECT);
    }

    /** How classes of the JDK and the library are written. */
    enum Form {
        /** Whole, so that they are the same for every suite; but for packages with very many classes. */
        WHOLE,
        /** By what is reached: fewer classes are needed. */
        LEAN
    }

    /** What these methods reach, in whole classes where a suite has room for them. Fails as `Growing.add` does. */
    Reached reach(Collection<MethodRef> roots) {
        Growing whole = new Growing(Form.WHOLE);
        return whole.add(roots) <= MOST_CLASSES ? whole.reached() : reach(roots, Form.LEAN);
    }

    /** What these methods reach. Fails as `Growing.add` does. */
    Reached reach(Collection<MethodRef> roots, Form form) {
        Growing growing = new Growing(form);
        growing.add(roots);
        return growing.reached();
    }

    /** What roots reach that are added one after the other. */
    final class Growing {
        private final Form form;
        private final Reach reach = new Reach(hierarchy);
        private final List<MethodRef> roots = new ArrayList<>();

        Growing(Form form) {
            this.form = form;
        }

        Form form() {
            return form;
        }

        /** Adds methods, and answers how many classes all of them need. Fails with IllegalArgumentException where one isn't found. */
        int add(Collection<MethodRef> more) {
            roots.addAll(more);
            more.forEach(reach::root);
            completeTables(reach);
            Set<String> used = reach.used();
            used.stream().filter(name -> isWhole(name, form)).forEach(reach::mentionsOf);
            used.removeAll(reach.mentioned());
            return used.size() + reach.mentioned().size();
        }

        /** Whether they may initialise the class, by its internal name. */
        boolean initialises(String name) {
            return reach.initialised().contains(name);
        }

        /** What they reach by now. */
        Reached reached() {
            SortedSet<String> classes = new TreeSet<>(reach.mentioned());
            classes.addAll(reach.used());
            SortedSet<String> initialised = new TreeSet<>(reach.initialised());
            initialised.removeIf(name -> world.ancestors(name).stream().noneMatch(above -> reach.reaches(above, "<clinit>()V")));
            SortedSet<String> methods = new TreeSet<>();
            reach.methods().forEach((owner, keys) -> keys.forEach(key -> methods.add(owner + "." + key)));
            return new Reached(List.copyOf(roots), classes, cuts(reach), initialised, methods, form, reach);
        }
    }

    /** What tables call: `values` of enums, constructors, and members that are used by reflection; of classes whose tokens are named. */
    private void completeTables(Reach reach) {
        int before = -1;
        while (before != reach.tokens().size() + reach.made().size() + reach.methods().size()) {
            before = reach.tokens().size() + reach.made().size() + reach.methods().size();
            if (reach.reaches(Library.HELPERS + "ClassHelpers", "forName(Ljava/lang/String;)Ljava/lang/String;")) {
                reach.alsoNameByTexts();
            }
            Set<String> named = new TreeSet<>();
            for (String token : reach.tokens()) {
                named.add(token.substring(token.indexOf(' ') + 1).replace('.', '/'));
            }
            named.removeIf(name -> name.startsWith("[") || name.contains(" ") || world.get(name) == null);
            for (String name : List.copyOf(named)) {
                completeNamed(name, reach);
            }
            named.addAll(reach.made());
            Set<String> own = new TreeSet<>();
            named.forEach(name -> own.addAll(hierarchy.ancestors(name)));
            own.removeIf(name -> !world.isOwn(name));
            own.forEach(name -> completeReflected(name, reach));
        }
    }

    private void completeNamed(String name, Reach reach) {
        String values = "values()[L" + name + ";";
        boolean enums = reach.reaches(Library.TABLES, "enumValues(Ljava/lang/String;)[Ljava/lang/Object;");
        if (enums && world.chain(name).contains("java/lang/Enum") && hierarchy.method(name, values) != null) {
            reach.alsoCall(name, values);
        }
        boolean instances = reach.reaches(Library.TABLES, "newInstance(Ljava/lang/String;)Ljava/lang/Object;");
        boolean concrete = (world.get(name).access & (ACC_ABSTRACT | ACC_INTERFACE)) == 0;
        if (instances && concrete && hierarchy.method(name, "<init>()V") != null) {
            reach.alsoMake(name);
        }
    }

    private void completeReflected(String name, Reach reach) {
        String[][] uses = {
            {"invoke", Reflections.INVOKE}, {"construct", Reflections.CONSTRUCT}, {"get", Reflections.GET}, {"set", Reflections.SET}
        };
        for (String[] use : uses) {
            if (reach.reaches(Library.TABLES, use[0] + use[1].replace("(", "(Ljava/lang/String;"))) {
                reach.alsoCall(name + Reflections.SUFFIX, use[0] + use[1]);
            }
        }
    }

    private boolean isOfProject(String name) {
        return world.originOf(name) == World.Origin.PROJECT;
    }

    private boolean isWhole(String name, Form form) {
        boolean lean = form == Form.LEAN || LEAN.stream().anyMatch(name::startsWith);
        return !isOfProject(name) && !name.equals(Library.TABLES) && !lean;
    }

    private List<Cut> cuts(Reach reach) {
        List<Cut> cuts = new ArrayList<>();
        reach.methods().forEach((owner, keys) -> {
            Map<String, List<Cut>> all = hierarchy.get(owner).cuts();
            keys.forEach(key -> cuts.addAll(all.getOrDefault(key, List.of())));
        });
        cuts.sort(Comparator.comparing((Cut cut) -> cut.where().owner()).thenComparing(cut -> cut.where().key()).thenComparing(Cut::line));
        return cuts;
    }

    /**
     * A generated class with one method `warm()V`, which initialises the classes of `reached.initialised()` in that order and
     * swallows what their initialisers throw; to be given to `add`, with its method as a root.
     */
    ClassNode warmUp(String name, Reached reached) {
        ClassNode node = new ClassNode();
        node.version = V1_8;
        node.access = ACC_PUBLIC;
        node.name = name;
        node.superName = Builtins.OBJECT;
        MethodNode method = new MethodNode(ACC_PUBLIC | ACC_STATIC, "warm", "()V", null, null);
        for (String each : reached.initialised()) {
            initialise(method, each);
        }
        method.instructions.add(new InsnNode(RETURN));
        node.methods.add(method);
        return node;
    }

    private void initialise(MethodNode method, String name) {
        InsnList code = method.instructions;
        LabelNode start = new LabelNode();
        LabelNode end = new LabelNode();
        LabelNode handler = new LabelNode();
        LabelNode after = new LabelNode();
        code.add(start);
        code.add(new MethodInsnNode(INVOKESTATIC, name, Members.INITIALISE, "()V", world.isInterface(name)));
        code.add(end);
        code.add(new JumpInsnNode(GOTO, after));
        code.add(handler);
        code.add(new InsnNode(POP));
        code.add(after);
        method.tryCatchBlocks.add(new TryCatchBlockNode(start, end, handler, Builtins.THROWABLE));
    }

    /** The class files of what was reached: internal names with bytes. */
    SortedMap<String, byte[]> write(Reached reached) {
        SortedMap<String, byte[]> written = new TreeMap<>();
        Set<String> used = reached.reach().used();
        for (String name : reached.classes()) {
            written.put(name, write(name, used, reached));
        }
        return written;
    }

    private byte[] write(String name, Set<String> used, Reached reached) {
        Reach reach = reached.reach();
        if (name.equals(Library.TABLES)) {
            return files.write(new Tables(hierarchy, reach).make(), method -> true);
        }
        ClassNode node = hierarchy.node(name);
        Predicate<MethodNode> isReached = method -> reach.reaches(name, method.name + method.desc);
        if (isOfProject(name)) {
            return files.write(node, isReached);
        }
        boolean whole = used.contains(name) && isWhole(name, reached.form());
        return files.writeLean(node, whole ? method -> true : isReached);
    }
}
