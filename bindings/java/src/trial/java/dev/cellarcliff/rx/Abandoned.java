package dev.cellarcliff.rx;

import io.reactivex.rxjava3.core.Observable;
import io.reactivex.rxjava3.subjects.PublishSubject;
import java.util.Arrays;
import java.util.concurrent.atomic.AtomicInteger;

/**
 * Pipelines that are subscribed to and dropped: Abandoned MANY, over RxJava and over the engine. How many bytes each leaves, what was made and released,
 * and what is open yet. The status is 1 where a resource is not released, or the engine leaves more than twice what RxJava does.
 */
public final class Abandoned {
    private static final AtomicInteger made = new AtomicInteger(), released = new AtomicInteger();

    private Abandoned() { }

    private static void subscribe(int i) {
        PublishSubject<Integer> s = PublishSubject.create();
        switch (i % 4) {
            case 0: s.flatMap(Observable::just).subscribe(); break;
            case 1: Observable.using(made::incrementAndGet, it -> s, it -> { if (s != null) { released.incrementAndGet(); } }).subscribe(); break;
            case 2: s.share().takeUntil(Observable.never()).subscribe(); break;
            default: {
                Observable<Integer> shared = Observable.using(made::incrementAndGet, it -> s, it -> released.incrementAndGet()).share();
                shared.switchMap(v -> shared).subscribe();
            }
        }
        s.onNext(1);
    }

    private static long left(int many) throws InterruptedException {
        Runtime runtime = Runtime.getRuntime();
        long before = 0;
        for (int round = 0; round < 2; round++) {  // classes are loaded in the first
            settle();
            before = runtime.totalMemory() - runtime.freeMemory();
            for (int i = 0; i < (round == 0 ? 1000 : many); i++) { subscribe(i); }
        }
        settle();
        return runtime.totalMemory() - runtime.freeMemory() - before;
    }

    private static void settle() throws InterruptedException {
        for (int i = 0, told = -1; i < 20 || released.get() != told; i++) {
            told = released.get();
            System.gc();
            Thread.sleep(100);
            Collected.closeAll();
        }
    }

    public static void main(String[] words) throws Exception {
        int many = Integer.parseInt(words[0]);
        Engine.current();
        long theirs = left(many);
        System.out.println("RxJava: " + theirs + " bytes left of " + many + ", made " + made + ", released " + released);
        made.set(0);
        released.set(0);
        Hooks.install();
        long ours = left(many);
        System.out.println("engine: " + ours + " bytes left, made " + made + ", released " + released + ", " + Arrays.toString(Engine.current().counts()));
        System.exit(made.get() == released.get() && ours <= 2 * Math.max(theirs, 1 << 20) ? 0 : 1);
    }
}
