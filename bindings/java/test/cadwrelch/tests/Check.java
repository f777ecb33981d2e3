package cadwrelch.tests;

import java.lang.annotation.ElementType;
import java.lang.annotation.Retention;
import java.lang.annotation.RetentionPolicy;
import java.lang.annotation.Target;
import java.lang.reflect.InvocationTargetException;
import java.lang.reflect.Method;
import java.util.Arrays;
import java.util.Comparator;
import java.util.Objects;
import java.util.concurrent.atomic.AtomicInteger;

/**
 * Checks, each with the rule that it is made for, and the program that runs them. Any thread may make one.
 *
 * <p>usage: Check SUITE.. runs each static method of a class, of this package or by its whole name, that is marked as a
 * Test. A check that fails is printed with its rule and its line; the last line is {@code N checks, M failed}. Exit
 * status 1 if one has failed.
 */
public final class Check {
    /** Marks a test: a static method without parameters. */
    @Retention(RetentionPolicy.RUNTIME)
    @Target(ElementType.METHOD)
    public @interface Test {}

    /** Something that may throw. */
    public interface Body {
        void run() throws Throwable;
    }

    private static final AtomicInteger made = new AtomicInteger();
    private static final AtomicInteger failed = new AtomicInteger();

    private Check() {}

    /** That a value is equal to what the rule says. */
    public static void equal(String rule, Object expected, Object actual) {
        count(rule, Objects.equals(expected, actual), "expected " + expected + ", but it is " + actual);
    }

    /** That two references are to one object. */
    public static void same(String rule, Object expected, Object actual) {
        count(rule, expected == actual, "expected " + expected + " itself, but it is " + actual);
    }

    /** That something holds. */
    public static void holds(String rule, boolean it) {
        count(rule, it, "it doesn't hold");
    }

    /** That a body throws an exception of a type, which is given back; null if it doesn't. */
    public static <T extends Throwable> T thrown(String rule, Class<T> type, Body body) {
        Throwable actual = null;
        try {
            body.run();
        } catch (Throwable e) {
            actual = e;
        }
        count(rule, type.isInstance(actual), "expected " + type.getName() + ", but it is " + actual);
        return type.isInstance(actual) ? type.cast(actual) : null;
    }

    private static void count(String rule, boolean holds, String otherwise) {
        made.incrementAndGet();
        if (!holds) {
            failed.incrementAndGet();
            System.out.println("FAILED: " + rule + ": " + otherwise + " (" + caller() + ")");
        }
    }

    /** Where the check stands: the frame nearest to here that isn't this class's. */
    private static StackTraceElement caller() {
        return Arrays.stream(new Throwable().getStackTrace())
                .filter(frame -> !frame.getClassName().equals(Check.class.getName()))
                .findFirst()
                .orElseThrow();
    }

    private static void run(Method test) {
        try {
            test.setAccessible(true);
            test.invoke(null);
        } catch (InvocationTargetException e) {
            made.incrementAndGet();
            failed.incrementAndGet();
            System.out.println("FAILED: " + test.getDeclaringClass().getSimpleName() + "." + test.getName());
            e.getCause().printStackTrace(System.out);
        } catch (IllegalAccessException e) {
            throw new AssertionError(e);
        }
    }

    public static void main(String[] suites) throws ClassNotFoundException {
        for (String suite : suites) {
            Arrays.stream(Class.forName(suite.contains(".") ? suite : Check.class.getPackageName() + "." + suite)
                    .getDeclaredMethods())
                    .filter(method -> method.isAnnotationPresent(Test.class))
                    .sorted(Comparator.comparing(Method::getName))
                    .forEach(Check::run);
        }
        System.out.println(made + " checks, " + failed + " failed");
        // Threads that wait for nothing any more must not keep the process.
        System.exit(failed.get() == 0 && made.get() > 0 ? 0 : 1);
    }
}
