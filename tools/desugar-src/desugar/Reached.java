package desugar;

import java.util.List;
import java.util.SortedSet;

/**
 * What a set of root methods reaches, after rewriting.
 *
 * @param roots the roots, in the order given
 * @param classes internal names of all classes that a suite of these roots needs: 1,024 at most may stand in a suite
 * @param cuts the cuts in methods that are reached, by class, method and line
 * @param initialised classes of the suite with a static initialiser that is reached, or one of a class or interface above them
 * @param methods the methods reached: `owner.name+descriptor`, after rewriting
 * @param form how classes of the JDK and the library are written
 * @param reach what the classes are written by
 */
record Reached(
        List<MethodRef> roots, SortedSet<String> classes, List<Cut> cuts, SortedSet<String> initialised, SortedSet<String> methods,
        Rewriter.Form form, Reach reach) {}
