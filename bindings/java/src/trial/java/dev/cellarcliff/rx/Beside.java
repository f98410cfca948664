package dev.cellarcliff.rx;

import io.reactivex.rxjava3.core.Observable;
import io.reactivex.rxjava3.disposables.Disposable;
import io.reactivex.rxjava3.subjects.PublishSubject;
import java.lang.management.ManagementFactory;
import java.lang.management.ThreadMXBean;
import java.util.ArrayList;
import java.util.Arrays;
import java.util.List;
import java.util.concurrent.atomic.AtomicLong;

/**
 * The same work over RxJava's own operators and over the engine's, in one JVM and in turns: Beside [ROUNDS [WORD]]. Of each whose name has
 * the word the nanoseconds of processor time: the least of all rounds, and in brackets the median.
 */
public final class Beside {
    private static final ThreadMXBean BEAN = ManagementFactory.getThreadMXBean();
    private static long sink;
    private static String only = "";

    private Beside() { }

    /** Does something so many times: the nanoseconds that it took. */
    private interface Work {
        long take(int many) throws Exception;
    }

    private static Work alone(Runnable once) {
        return many -> {
            long before = BEAN.getCurrentThreadCpuTime();
            for (int i = 0; i < many; i++) { once.run(); }
            return BEAN.getCurrentThreadCpuTime() - before;
        };
    }

    private static Work threads(List<Runnable> each) {
        return many -> {
            AtomicLong took = new AtomicLong();
            List<Thread> all = new ArrayList<>();
            for (Runnable once : each) {
                all.add(new Thread(() -> {
                    try {
                        took.addAndGet(alone(once).take(many / each.size()));
                    } catch (Exception why) {
                        throw new AssertionError(why);
                    }
                }));
            }
            for (Thread thread : all) { thread.start(); }
            for (Thread thread : all) { thread.join(); }
            return took.get();
        };
    }

    private static <T> Observable<T> held(Observable<T> source) { return Observable.using(Object::new, it -> source, it -> sink++); }

    private interface Case {
        Work make();
    }

    private static Work item(Observable<Integer> pipeline, PublishSubject<Integer> s) {
        pipeline.subscribe(v -> sink += v);
        return alone(() -> s.onNext(1));
    }

    private static Work pipelines(int many) {
        List<Runnable> all = new ArrayList<>();
        for (int i = 0; i < many; i++) {
            PublishSubject<Integer> s = PublishSubject.create();
            held(s).subscribe(v -> { });
            all.add(() -> s.onNext(1));
        }
        return threads(all);
    }

    private static Work shareOf(int many, boolean isItem) {
        PublishSubject<Integer> s = PublishSubject.create();
        Observable<Integer> shared = s.share();
        for (int i = 0; i < many; i++) { shared.subscribe(v -> sink += v); }
        return isItem ? count -> alone(() -> s.onNext(1)).take(count / many) : alone(() -> shared.subscribe(v -> sink += v).dispose());
    }

    public static void main(String[] words) throws Exception {
        int rounds = words.length > 0 ? Integer.parseInt(words[0]) : 15;
        only = words.length > 1 ? words[1] : "";
        System.out.printf("%-56s %18s %18s%n", "", "RxJava", "engine");
        row(rounds, 200_000, "an item: subject, map, using", () -> {
            PublishSubject<Integer> s = PublishSubject.create();
            return item(held(s.map(v -> v + 1)), s);
        });
        row(rounds, 200_000, "an item: using, map, takeUntil, filter, doFinally", () -> {
            PublishSubject<Integer> s = PublishSubject.create();
            return item(held(s).map(v -> v + 1).takeUntil(Observable.never()).filter(v -> v > 0).doFinally(() -> { }), s);
        });
        row(rounds, 100_000, "an item through flatMap of just", () -> {
            PublishSubject<Integer> s = PublishSubject.create();
            return item(s.flatMap(Observable::just), s);
        });
        row(rounds, 50_000, "an item through flatMap of two", () -> {
            PublishSubject<Integer> s = PublishSubject.create();
            return item(s.flatMap(v -> Observable.range(v, 2)), s);
        });
        row(rounds, 50_000, "switchMap: an exchange, and an item", () -> {
            PublishSubject<Integer> s = PublishSubject.create(), inner = PublishSubject.create();
            Disposable given = s.switchMap(v -> inner).subscribe(v -> sink += v);
            return alone(() -> {
                s.onNext(1);
                inner.onNext(2);
            });
        });
        row(rounds, 50_000, "using: subscribed to, an item, disposed of", () -> {
            PublishSubject<Integer> s = PublishSubject.create();
            return alone(() -> {
                Disposable given = held(s).subscribe(v -> sink += v);
                s.onNext(1);
                given.dispose();
            });
        });
        row(rounds, 20_000, "comes to a share of 1,000, and leaves it", () -> shareOf(1000, false));
        row(rounds, 400_000, "an item to each of 1,000 subscribers of a share", () -> shareOf(1000, true));
        row(rounds, 400_000, "an item, 4 threads at 4 pipelines", () -> pipelines(4));
    }

    private static void row(int rounds, int many, String name, Case made) throws Exception {
        if (!name.contains(only)) { return; }
        long[] theirs = new long[rounds], ours = new long[rounds];
        Work rxjava = made.make();
        Hooks.install();
        Work engine = made.make();
        Hooks.uninstall();
        for (int i = 0; i < 5; i++) {
            rxjava.take(many);
            Hooks.install();
            engine.take(many);
            Hooks.uninstall();
        }
        for (int i = 0; i < rounds; i++) {
            theirs[i] = rxjava.take(many);
            Hooks.install();
            ours[i] = engine.take(many);
            Hooks.uninstall();
        }
        System.out.printf("%-56s %18s %18s%n", name, figures(theirs, many), figures(ours, many));
    }

    private static String figures(long[] all, int many) {
        Arrays.sort(all);
        return all[0] / many + " (" + all[all.length / 2] / many + ")";
    }
}
