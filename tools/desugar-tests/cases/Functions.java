import java.io.Serializable;
import java.util.ArrayList;
import java.util.List;
import java.util.concurrent.Callable;
import java.util.function.BiFunction;
import java.util.function.Function;
import java.util.function.IntBinaryOperator;
import java.util.function.Supplier;
import java.util.function.ToDoubleFunction;
import java.util.stream.Collectors;
import java.util.stream.IntStream;
import java.util.stream.Stream;

/** Lambdas, method references and streams. */
public class Functions {
    private final int base;

    Functions(int base) {
        this.base = base;
    }

    private int plus(int n) {
        return base + n;
    }

    Function<Integer, Integer> adder() {
        return this::plus;
    }

    Supplier<Supplier<Integer>> nested() {
        return () -> () -> base * 2;
    }

    interface Shape {
        double area();

        default String shown() {
            return "shape of " + area() + hidden();
        }

        private String hidden() {
            return "!";
        }

        static Shape square(double side) {
            return () -> side * side;
        }
    }

    public static void testLambdas() throws Exception {
        int k = 3;
        long l = 5;
        double d = 0.5;
        Function<Integer, Integer> times = n -> n * k;
        BiFunction<String, Integer, Character> at = String::charAt;
        Supplier<List<String>> maker = ArrayList::new;
        IntBinaryOperator sum = Integer::sum;
        ToDoubleFunction<String> scaled = s -> s.length() * d + l;
        Callable<String> called = () -> "called " + k;
        Function<Integer, int[]> arrays = int[]::new;
        System.out.println(times.apply(4) + " " + at.apply("abc", 1) + maker.get() + sum.applyAsInt(2, 3) + scaled.applyAsDouble("xy") + called.call() + arrays.apply(3).length);
        System.out.println(new Functions(10).adder().apply(5) + " " + new Functions(4).nested().get().get() + times.andThen(n -> n + 1).compose((Integer n) -> n * 2).apply(1));
        Runnable r = (Runnable & Serializable) () -> System.out.println("ran");
        r.run();
        System.out.println(Shape.square(1.5).shown());
    }

    public static void testStreams() {
        System.out.println(Stream.of("b", "a", "c", "a").distinct().sorted().collect(Collectors.joining(",", "[", "]")));
        System.out.println(IntStream.rangeClosed(1, 5).map(n -> n * n).filter(n -> n % 2 == 1).sum() + " " + IntStream.of(3, 1).boxed().collect(Collectors.toList()));
        System.out.println(List.of("one", "two", "three").stream().collect(Collectors.groupingBy(String::length, Collectors.counting())));
        System.out.println(Stream.iterate(1, n -> n * 2).limit(8).reduce(0, Integer::sum) + " " + Stream.of(1, 2, 3).mapToInt(Integer::intValue).average().getAsDouble());
        System.out.println("hello".chars().mapToObj(c -> "" + (char) c).collect(Collectors.toList()) + " " + Stream.of(1, 2).anyMatch(n -> n > 1));
    }
}
