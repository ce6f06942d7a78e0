package desugar;

import java.util.ArrayDeque;
import java.util.ArrayList;
import java.util.Deque;
import java.util.HashMap;
import java.util.HashSet;
import java.util.LinkedHashMap;
import java.util.LinkedHashSet;
import java.util.List;
import java.util.Map;
import java.util.Set;
import java.util.TreeSet;
import org.objectweb.asm.Opcodes;
import org.objectweb.asm.tree.ClassNode;
import org.objectweb.asm.tree.MethodNode;

/**
 * What roots reach in classes after rewriting: rapid type analysis (Bacon and Sweeney 1996), in which a call reaches the methods that it
 * selects in classes of which an object is made, below the class that the call names.
 */
final class Reach {
    private final Hierarchy hierarchy;
    private final Map<String, Set<String>> methods = new LinkedHashMap<>();
    private final Set<String> mentioned = new LinkedHashSet<>();
    private final Set<String> initialised = new LinkedHashSet<>();
    private final Set<String> made = new LinkedHashSet<>();
    private final Map<String, Set<String>> calledOn = new HashMap<>();
    private final Map<String, List<String>> madeWith = new HashMap<>();
    private final Set<String> tokens = new TreeSet<>();
    private final Set<String> namedByTexts = new TreeSet<>();
    private final Set<String> arrays = new TreeSet<>();
    private final Set<String> whole = new HashSet<>();
    private final Deque<MethodRef> open = new ArrayDeque<>();

    Reach(Hierarchy hierarchy) {
        this.hierarchy = hierarchy;
    }

    /** Follows a static method. */
    void root(MethodRef root) {
        if (hierarchy.node(root.owner()) == null || hierarchy.method(root.owner(), root.key()) == null) {
            throw new IllegalArgumentException("no method " + root.shown());
        }
        initialise(root.owner());
        method(root.owner(), root.key());
        run();
    }

    /** Follows the static methods and constructors that tables call. */
    void alsoMake(String name) {
        make(name);
        method(name, "<init>()V");
        run();
    }

    void alsoCall(String owner, String key) {
        initialise(owner);
        method(owner, key);
        run();
    }

    private void run() {
        while (!open.isEmpty()) {
            MethodRef next = open.poll();
            follow(hierarchy.uses(hierarchy.method(next.owner(), next.key())));
        }
    }

    private void method(String owner, String key) {
        mention(owner);
        MethodNode found = hierarchy.method(owner, key);
        if (found != null && methods.computeIfAbsent(owner, each -> new LinkedHashSet<>()).add(key)) {
            open.add(new MethodRef(owner, found.name, found.desc));
        }
    }

    /** A class whose file is needed, with those above it. */
    private void mention(String name) {
        String base = Types.base(name);
        if (base != null && !hierarchy.isBuiltin(base) && mentioned.add(base)) {
            ClassNode node = hierarchy.node(base);
            if (node == null) {
                throw new IllegalStateException("class " + base + " is named and isn't served");
            }
            mention(node.superName);
            node.interfaces.forEach(this::mention);
        }
    }

    /** A class whose initialiser may run: it, the classes above it, and interfaces with code of theirs (JVMS 5.5). */
    private void initialise(String name) {
        mention(name);
        if (hierarchy.isBuiltin(name) || !initialised.add(name)) {
            return;
        }
        method(name, "<clinit>()V");
        for (String at : hierarchy.ancestors(name)) {
            if (!hierarchy.isBuiltin(at) && (!hierarchy.world.isInterface(at) || hasCode(at))) {
                initialise(at);
            }
        }
    }

    private boolean hasCode(String name) {
        return hierarchy.node(name).methods.stream()
                .anyMatch(each -> (each.access & (Opcodes.ACC_ABSTRACT | Opcodes.ACC_STATIC)) == 0);
    }

    private void make(String name) {
        initialise(name);
        if (hierarchy.isBuiltin(name) || !made.add(name)) {
            return;
        }
        for (Map.Entry<String, String> each : hierarchy.selections(name).entrySet()) {
            madeWith.computeIfAbsent(each.getKey(), key -> new ArrayList<>()).add(name);
            for (String on : calledOn.getOrDefault(each.getKey(), Set.of())) {
                if (hierarchy.isSubtype(name, on)) {
                    method(each.getValue(), each.getKey());
                    break;
                }
            }
        }
    }

    private void call(String on, String key) {
        if (!calledOn.computeIfAbsent(key, each -> new HashSet<>()).add(on)) {
            return;
        }
        for (String name : madeWith.getOrDefault(key, List.of())) {
            if (hierarchy.isSubtype(name, on)) {
                method(hierarchy.selections(name).get(key), key);
            }
        }
    }

    private void follow(Uses uses) {
        uses.named().forEach(this::mention);
        uses.initialised().forEach(this::initialise);
        uses.made().forEach(this::make);
        arrays.addAll(uses.arrays());
        uses.texts().forEach(this::token);
        uses.declared().forEach(each -> method(each.owner(), each.key()));
        uses.selected().forEach(each -> call(each.owner(), each.key()));
    }

    private void token(String text) {
        if (text.startsWith("class ") || text.startsWith("interface ")) {
            tokens.add(text);
        } else if (hierarchy.world.isOwn(text.replace('.', '/'))) {
            namedByTexts.add(text.replace('.', '/'));
        }
    }

    /** Classes of the project whose names stand in texts become ones whose tokens are named. */
    void alsoNameByTexts() {
        for (String name : namedByTexts) {
            mention(name);
            tokens.add(hierarchy.tokenOf(name));
        }
    }

    Map<String, Set<String>> methods() {
        return methods;
    }

    boolean reaches(String owner, String key) {
        return methods.getOrDefault(owner, Set.of()).contains(key);
    }

    /** Classes that run code or of which objects are made. */
    Set<String> used() {
        Set<String> used = new TreeSet<>(initialised);
        used.addAll(methods.keySet());
        return used;
    }

    Set<String> mentioned() {
        return mentioned;
    }

    Set<String> initialised() {
        return initialised;
    }

    Set<String> made() {
        return made;
    }

    Set<String> tokens() {
        return tokens;
    }

    Set<String> arrays() {
        return arrays;
    }

    /** Takes classes that the methods of a class name as mentioned ones, without following these. */
    void mentionsOf(String name) {
        if (whole.add(name)) {
            hierarchy.node(name).methods.forEach(method -> hierarchy.uses(method).named().forEach(this::mention));
        }
    }
}
