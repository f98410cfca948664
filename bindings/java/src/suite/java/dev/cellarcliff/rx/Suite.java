package dev.cellarcliff.rx;

import io.reactivex.rxjava3.core.Completable;
import io.reactivex.rxjava3.core.Flowable;
import io.reactivex.rxjava3.core.Maybe;
import io.reactivex.rxjava3.core.Observable;
import io.reactivex.rxjava3.core.Single;
import io.reactivex.rxjava3.functions.Function;
import io.reactivex.rxjava3.observables.ConnectableObservable;
import io.reactivex.rxjava3.plugins.RxJavaPlugins;
import java.lang.reflect.Method;
import java.util.Arrays;
import java.util.Map;
import java.util.TreeMap;
import java.util.concurrent.ConcurrentSkipListMap;
import java.util.concurrent.ExecutorService;
import java.util.concurrent.Executors;
import java.util.concurrent.Future;
import java.util.concurrent.TimeUnit;
import java.util.concurrent.TimeoutException;
import org.junit.Test;
import org.junit.runner.JUnitCore;
import org.junit.runner.Request;
import org.junit.runner.Result;

/**
 * Runs tests of JUnit's, each over an engine of its own: Suite SECONDS FROM CLASS .., from the FROM-th test on. A line for each, with tabs
 * between: class, test, verdict, how many operators of the engine it made, what is left open, why it failed. With -Dtheirs RxJava's operators
 * stay. Behind a test that is not over in time the last line has the number of the next one, and the status is 3.
 */
@SuppressWarnings({"unchecked", "rawtypes"})
public final class Suite {
    private Suite() { }

    public static void main(String[] words) throws Exception {
        int seconds = Integer.parseInt(words[0]), from = Integer.parseInt(words[1]), count = 0;
        String only = System.getProperty("only");
        for (String name : Arrays.copyOfRange(words, 2, words.length)) {
            Class<?> type = Class.forName(name);
            Map<String, Method> tests = new TreeMap<>();
            for (Method method : type.getMethods()) {
                if (method.isAnnotationPresent(Test.class)) { tests.put(method.getName(), method); }
            }
            for (String test : tests.keySet()) {
                if (count++ < from || only != null && !only.equals(test)) { continue; }
                if (!run(type, test, seconds, only != null)) {
                    System.out.println("FROM\t" + count);
                    System.exit(3);
                }
            }
        }
        System.exit(0);
    }

    private static boolean run(Class<?> type, String test, int seconds, boolean isLoud) throws Exception {
        RxJavaPlugins.reset();
        Hooks.uninstall();
        Engine engine = Engine.renew();
        Map<String, Integer> made = new ConcurrentSkipListMap<>();
        if (System.getProperty("theirs") == null) {
            Hooks.install();
            Function<? super Observable, ? extends Observable> all = RxJavaPlugins.getOnObservableAssembly();
            Function<? super ConnectableObservable, ? extends ConnectableObservable> shares = RxJavaPlugins.getOnConnectableObservableAssembly();
            Function<? super Flowable, ? extends Flowable> flowables = RxJavaPlugins.getOnFlowableAssembly();
            Function<? super Single, ? extends Single> singles = RxJavaPlugins.getOnSingleAssembly();
            Function<? super Maybe, ? extends Maybe> maybes = RxJavaPlugins.getOnMaybeAssembly();
            Function<? super Completable, ? extends Completable> completables = RxJavaPlugins.getOnCompletableAssembly();
            RxJavaPlugins.setOnFlowableAssembly(given -> counted(made, given, flowables.apply(given)));
            RxJavaPlugins.setOnSingleAssembly(given -> counted(made, given, singles.apply(given)));
            RxJavaPlugins.setOnMaybeAssembly(given -> counted(made, given, maybes.apply(given)));
            RxJavaPlugins.setOnCompletableAssembly(given -> counted(made, given, completables.apply(given)));
            RxJavaPlugins.setOnObservableAssembly(given -> counted(made, given, all.apply(given)));
            RxJavaPlugins.setOnConnectableObservableAssembly(given -> counted(made, given, shares.apply(given)));
        }
        ExecutorService one = Executors.newSingleThreadExecutor(task -> {
            Thread thread = new Thread(task, test);
            thread.setDaemon(true);
            return thread;
        });
        long began = System.nanoTime();
        Future<Result> running = one.submit(() -> new JUnitCore().run(Request.method(type, test)));
        String verdict, why = "";
        try {
            Result result = running.get(seconds, TimeUnit.SECONDS);
            verdict = result.getIgnoreCount() > 0 ? "skipped" : result.wasSuccessful() ? "passed" : "failed";
            if (!result.getFailures().isEmpty()) {
                Throwable failure = result.getFailures().get(0).getException();
                why = String.valueOf(failure).replaceAll("\\s+", " ");
                why = why.substring(0, Math.min(200, why.length()));
                if (isLoud) { failure.printStackTrace(System.out); }
            }
        } catch (TimeoutException late) {
            verdict = "late";
            if (isLoud) { Thread.getAllStackTraces().forEach((thread, frames) -> System.out.println(thread + " " + Arrays.toString(frames).replace(", ", "\n    "))); }
        }
        one.shutdownNow();
        long[] counts = engine.counts();
        for (int i = 0; i < 200 && counts[2] + counts[3] + counts[5] > 0; i++) {  // threads of schedulers tell yet
            Thread.sleep(10);
            counts = engine.counts();
        }
        String left = Arrays.toString(verdict.equals("late") ? new long[6] : counts), took = (System.nanoTime() - began) / 1_000_000 + " ms";
        System.out.println("TEST\t" + String.join("\t", type.getSimpleName(), test, verdict, made.toString(), left, took, why));
        System.out.flush();
        return !verdict.equals("late");
    }

    private static <T> T counted(Map<String, Integer> made, T given, T exchanged) {
        if (exchanged != given) { made.merge(exchanged.getClass().getSimpleName(), 1, Integer::sum); }
        return exchanged;
    }
}
