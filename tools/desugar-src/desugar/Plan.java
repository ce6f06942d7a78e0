package desugar;

import java.util.List;
import java.util.Optional;

/**
 * How a test is run: what is made, and what is called in which order.
 *
 * @param instances the objects to make, each given to the constructor of the next as its first argument: of a nested test the
 *     outer ones, and last the one that the test is called on; none for a static test
 * @param shared whether the class's tests share one object
 * @param begin whether the class, or one around it, has something to call before its first test
 * @param before calls before the test
 * @param test the test itself
 * @param after calls behind it, each of which is made though the ones before threw
 * @param afterAlways whether these are made too where a call before the test threw
 * @param expected the throwable that the test has to end with
 * @param arguments where the arguments of the test, or of the constructor, come from: one run for each; a single run without
 *     arguments where there is none
 * @param repetitions how often the test is run for each of them
 * @param rules fields of the last object with rules of JUnit 4 around all this, in the order in which they are applied
 */
record Plan(
        List<Instance> instances,
        boolean shared,
        boolean begin,
        List<Call> before,
        Call test,
        List<Call> after,
        boolean afterAlways,
        Optional<String> expected,
        List<Source> arguments,
        int repetitions,
        List<Field> rules) {

    /** A plan of one run of a method of an object that is made without arguments. */
    static Plan simple(List<Instance> instances, Call test, List<Call> before, List<Call> after, boolean afterAlways) {
        return new Plan(instances, false, false, before, test, after, afterAlways, Optional.empty(), List.of(), 1, List.of());
    }

    Plan expecting(Optional<String> throwable) {
        return new Plan(instances, shared, begin, before, test, after, afterAlways, throwable, arguments, repetitions, rules);
    }

    Plan begun(boolean begins) {
        return new Plan(instances, shared, begins, before, test, after, afterAlways, expected, arguments, repetitions, rules);
    }

    Plan sharing(boolean one) {
        return new Plan(instances, one, begin, before, test, after, afterAlways, expected, arguments, repetitions, rules);
    }

    Plan ruled(List<Field> fields) {
        return new Plan(instances, shared, begin, before, test, after, afterAlways, expected, arguments, repetitions, fields);
    }

    Plan with(List<Source> sources, int times) {
        return new Plan(instances, shared, begin, before, test, after, afterAlways, expected, sources, times, rules);
    }

    /**
     * An object to make.
     *
     * @param constructor the descriptor of its constructor; null for an object that a method of the one before it answers
     * @param fields fields that take the arguments of the run, by place; null in a place that none takes
     * @param maker that method
     */
    record Instance(String owner, String constructor, List<Field> fields, MethodRef maker) {
        Instance(String owner, String constructor) {
            this(owner, constructor, List.of());
        }

        Instance(String owner, String constructor, List<Field> fields) {
            this(owner, constructor, fields, null);
        }

        static Instance made(String owner, MethodRef maker) {
            return new Instance(owner, null, List.of(), maker);
        }
    }

    record Field(String owner, String name, String descriptor) {}

    /**
     * A call without result.
     *
     * @param on the place in `instances` of the object that it is made on; -1 for a static method
     */
    record Call(MethodRef method, int on, boolean ofInterface) {}

    /** Where arguments come from. */
    sealed interface Source permits Literals, Provided {}

    /** The arguments of one run, as constants, each of its parameter's own type. */
    record Literals(List<Object> values) implements Source {}

    /** A method that answers a stream, an iterator, something iterable or an array of arguments; `on` as in a call. */
    record Provided(MethodRef method, int on, boolean ofInterface) implements Source {}

    /** A constant of an enum, as an argument. */
    record EnumConstant(String owner, String name) {}

    /** An argument of an empty array, or of what a static method without arguments answers. */
    record Made(MethodRef method, boolean ofInterface) {}
}
