package dev.cellarcliff.rx;

import io.reactivex.rxjava3.plugins.RxJavaPlugins;
import java.lang.reflect.Method;
import java.lang.reflect.Modifier;
import java.util.ArrayList;
import java.util.Arrays;
import java.util.Comparator;
import java.util.List;

/**
 * Runs tests: Tests CLASS .. Each method without arguments is one. It runs with the hooks and an engine of its own; behind it nothing may be
 * open, and RxJava's hook for errors may have heard nothing that the test did not take out of `strays`.
 */
public final class Tests {
    static final List<Throwable> strays = new ArrayList<>();

    private Tests() { }

    public static void main(String[] classes) throws Exception {
        int ran = 0, failed = 0;
        for (String name : classes) {
            Class<?> type = Class.forName(Tests.class.getPackageName() + '.' + name);
            Method[] methods = type.getDeclaredMethods();
            Arrays.sort(methods, Comparator.comparing(Method::getName));
            for (Method method : methods) {
                if (method.getParameterCount() > 0 || method.isSynthetic() || Modifier.isPrivate(method.getModifiers()) || Modifier.isStatic(method.getModifiers())) { continue; }
                ran++;
                try {
                    run(type, method);
                } catch (Throwable why) {
                    failed++;
                    System.out.println(name + '.' + method.getName() + " failed");
                    why.printStackTrace(System.out);
                }
            }
        }
        System.out.println(ran + " tests, " + failed + " failed");
        System.exit(failed == 0 && ran > 0 ? 0 : 1);
    }

    private static void run(Class<?> type, Method method) throws Throwable {
        Engine engine = Engine.renew();
        strays.clear();
        RxJavaPlugins.setErrorHandler(why -> { synchronized (strays) { strays.add(why); } });
        Hooks.install();
        try {
            method.invoke(type.getDeclaredConstructor().newInstance());
        } catch (java.lang.reflect.InvocationTargetException why) {
            throw why.getCause();
        } finally {
            Hooks.uninstall();
            RxJavaPlugins.setErrorHandler(null);
        }
        same(Arrays.toString(new long[6]), Arrays.toString(engine.counts()));
        same(List.of(), strays);
    }

    static void same(Object expected, Object found) {
        if (!expected.equals(found)) { throw new AssertionError("expected " + expected + " but found " + found); }
    }
}
