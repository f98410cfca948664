package dev.cellarcliff.rx;

import io.reactivex.rxjava3.core.Observable;
import io.reactivex.rxjava3.core.Observer;
import io.reactivex.rxjava3.disposables.Disposable;
import io.reactivex.rxjava3.plugins.RxJavaPlugins;
import io.reactivex.rxjava3.subjects.PublishSubject;
import java.util.Arrays;
import java.util.Random;

/**
 * Memory that runs out: java -Xmx6m -XX:+UseSerialGC Memory ROUNDS. A pipeline is subscribed to, fed and left while the heap has room for a few objects
 * only, so that allocations fail anywhere; then there is memory again, and everything is disposed of. Each resource that was made has to
 * be released, once, and nothing may be left; and an item that was taken without an error has to be told.
 */
public final class Memory {
    private static int made, released, twice, pushed, told;
    private static Disposable[] given = new Disposable[8];
    private static int many;

    private Memory() { }

    /** What is made beforehand, so that the supplier itself asks for no memory. */
    private static final class Resource {
        boolean isMade, isReleased;
    }

    private static final Resource[] READY = new Resource[4096];
    private static int next;

    private static Observable<Object> held(Observable<Object> source, boolean isEager) {
        return Observable.using(() -> {
            Resource it = READY[next++];
            it.isMade = true;
            made++;
            return it;
        }, it -> source, it -> {
            if (it.isReleased) { twice++; }
            it.isReleased = true;
            released++;
        }, isEager);
    }

    private static final class Hearer implements Observer<Object> {
        private final int number;

        Hearer(int number) { this.number = number; }

        @Override public void onSubscribe(Disposable it) { given[number] = it; }
        @Override public void onNext(Object v) { told++; }
        @Override public void onError(Throwable why) { }
        @Override public void onComplete() { }
    }

    public static void main(String[] words) {
        int rounds = Integer.parseInt(words[0]), refused = 0;
        RxJavaPlugins.setErrorHandler(why -> { });
        Hooks.install();
        Random random = new Random(1);
        byte[][] ballast = new byte[1 << 17][];
        Object item = new Object();
        for (int round = 0; round < rounds; round++) {
            next = made = released = many = 0;
            for (int i = 0; i < READY.length; i++) { READY[i] = new Resource(); }
            PublishSubject<Object> s = PublishSubject.create(), other = PublishSubject.create();
            Observable<Object> shared = held(other, true).share();
            Observable<Object> all = held(s.flatMap(v -> held(Observable.just(v).hide(), false)), true).takeUntil(other.filter(v -> false)).mergeWith(s.switchMap(v -> shared)).doFinally(() -> { });
            Hearer[] hearers = new Hearer[given.length];
            for (int i = 0; i < hearers.length; i++) { hearers[i] = new Hearer(i); }
            Arrays.fill(given, null);
            all.subscribe(hearers[many++]);
            s.onNext(item);
            int filled = 0, spare = random.nextInt(200);
            try {
                for (int size = 64 << 10; size >= 16; size /= 8) {
                    try {
                        while (true) { ballast[filled++] = new byte[size]; }
                    } catch (OutOfMemoryError full) {
                        filled--;
                    }
                }
                for (int i = 0; i < spare && filled > 0; i++) { ballast[--filled] = null; }
                for (int i = 0; i < 12; i++) {
                    try {
                        switch (random.nextInt(5)) {
                            case 0: if (many < hearers.length) { all.subscribe(hearers[many++]); } break;
                            case 1: if (given[random.nextInt(many)] != null) { given[random.nextInt(many)].dispose(); } break;
                            case 2: other.onNext(item); break;
                            default: s.onNext(item);
                        }
                    } catch (OutOfMemoryError | NullPointerException why) {
                        refused++;
                    }
                }
            } catch (OutOfMemoryError why) {
                refused++;
            } finally {
                Arrays.fill(ballast, 0, Math.max(filled, 0) + 1, null);
            }
            for (Disposable each : given) { if (each != null) { each.dispose(); } }
            String left = Arrays.toString(Engine.current().counts());
            boolean isLeft = false;
            for (int i = 0; i < 20 && !left.equals("[0, 0, 0, 0, 0, 0]"); i++) {  // a subscription whose observer was never handed it
                System.gc();
                Collected.closeAll();
                left = Arrays.toString(Engine.current().counts());
                isLeft = true;
            }
            if (made != released || twice > 0 || !left.equals("[0, 0, 0, 0, 0, 0]")) {
                System.out.println("round " + round + " made " + made + " released " + released + " twice " + twice + " left " + left + " " + isLeft);
                System.exit(1);
            }
        }
        System.out.println(rounds + " rounds, " + told + " told, refused " + refused + " times");
    }
}
