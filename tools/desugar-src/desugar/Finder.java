package desugar;

import java.util.Optional;
import org.objectweb.asm.tree.ClassNode;

/** Finds tests by the rules of one framework. */
interface Finder {
    /** The tests of a class; empty where it is no test class of this framework. */
    Optional<TestClass> testsOf(ClassNode node);
}
