package dev.cellarcliff.rx;

import io.reactivex.rxjava3.core.Observable;
import io.reactivex.rxjava3.core.Observer;
import io.reactivex.rxjava3.disposables.Disposable;
import io.reactivex.rxjava3.plugins.RxJavaPlugins;
import io.reactivex.rxjava3.subjects.PublishSubject;
import java.util.ArrayDeque;
import java.util.ArrayList;
import java.util.Arrays;
import java.util.List;
import java.util.Queue;
import java.util.Random;
import java.util.concurrent.ConcurrentLinkedQueue;
import java.util.concurrent.atomic.AtomicInteger;
import java.util.concurrent.atomic.AtomicIntegerArray;
import java.util.concurrent.atomic.AtomicLong;
import java.util.function.IntConsumer;

/**
 * Threads: Storm SECONDS [THREADS]. In turns: sources of one observer, whose items have to come all, once, in the order of each source, one
 * at a time; observers of shares that stay, each of which has to get all; pipelines made at random that come and go while others interrupt
 * the threads; and pipelines that nobody holds any more. Each resource has to be released once, and nothing may be left. The status is 1 if something is wrong.
 */
public final class Storm {
    private static final AtomicLong made = new AtomicLong(), released = new AtomicLong(), told = new AtomicLong(), pipelines = new AtomicLong();
    private static final Queue<String> wrong = new ConcurrentLinkedQueue<>();

    private Storm() { }

    private static final class Resource extends AtomicInteger {
        private static final long serialVersionUID = 1;

        Resource() { made.incrementAndGet(); }

        void release() {
            if (getAndIncrement() > 0) { wrong.add("a resource was released twice"); }
            released.incrementAndGet();
        }
    }

    private static <T> Observable<T> held(Observable<T> source, boolean isEager) { return Observable.using(Resource::new, it -> source, Resource::release, isEager); }

    /** Hears one thing at a time, and nothing behind the end. */
    private static class Hearer implements Observer<Integer>, Disposable {
        private final AtomicInteger inside = new AtomicInteger();
        private volatile Disposable given;
        volatile boolean isOver;

        void hear(Integer v) { }

        private void in(Integer v) {
            if (inside.getAndIncrement() != 0) { wrong.add("told within an item"); }
            if (isOver) { wrong.add("told behind the end"); }
            told.incrementAndGet();
            if (v == null) { isOver = true; } else { hear(v); }
            inside.decrementAndGet();
        }

        @Override public void onSubscribe(Disposable it) { given = it; }
        @Override public void onNext(Integer v) { in(v); }
        @Override public void onError(Throwable why) { in(null); }
        @Override public void onComplete() { in(null); }
        @Override public void dispose() { given.dispose(); }
        @Override public boolean isDisposed() { return given.isDisposed(); }
    }

    /** Hears all items of some sources: source << 24 | number. */
    private static final class Counting extends Hearer {
        final AtomicIntegerArray next;

        Counting(int sources) { next = new AtomicIntegerArray(sources); }

        @Override void hear(Integer v) {
            if (next.getAndIncrement(v >>> 24) != (v & 0xFF_FFFF)) { wrong.add("an item out of its order, or lost"); }
        }

        void expect(int each, boolean isEnded) {
            for (int i = 0; i < next.length(); i++) { if (next.get(i) != each) { wrong.add("told " + next.get(i) + " of " + each); } }
            if (isOver != isEnded) { wrong.add("no end"); }
        }
    }

    private static void all(int threads, IntConsumer work) throws InterruptedException {
        Thread[] all = new Thread[threads];
        for (int t = 0; t < threads; t++) {
            int mine = t;
            all[t] = new Thread(() -> work.accept(mine));
            all[t].setUncaughtExceptionHandler((thread, why) -> wrong.add("raised " + why));
            all[t].start();
        }
        for (Thread each : all) { each.join(); }
    }

    private static List<PublishSubject<Integer>> subjects(int many) {
        List<PublishSubject<Integer>> all = new ArrayList<>();
        for (int i = 0; i < many; i++) { all.add(PublishSubject.create()); }
        return all;
    }

    private static void ordered(int threads, int items) throws InterruptedException {
        List<PublishSubject<Integer>> all = subjects(threads);
        Counting hearer = new Counting(threads);
        held(Observable.merge(all).takeUntil(Observable.never()), true).doFinally(() -> { }).subscribe(hearer);
        all(threads, t -> {
            for (int i = 0; i < items; i++) { all.get(t).onNext(t << 24 | i); }
            all.get(t).onComplete();
        });
        hearer.expect(items, true);
    }

    private static void shared(int threads, int items) throws InterruptedException {
        List<PublishSubject<Integer>> all = subjects(threads);
        List<Observable<Integer>> shares = new ArrayList<>();
        for (PublishSubject<Integer> each : all) { shares.add(held(each, false).share()); }
        List<Counting> stay = new ArrayList<>();
        for (int i = 0; i < 4; i++) {
            Counting hearer = new Counting(threads);
            stay.add(hearer);
            (i % 2 == 0 ? Observable.merge(shares) : Observable.fromIterable(shares).flatMap(it -> held(it, true))).subscribe(hearer);
        }
        Counting lone = new Counting(threads);
        shares.get(0).subscribe(lone);
        all(threads, t -> {
            for (int i = 0; i < items; i++) {
                if (i % 8 == 0) { shares.get((t + i) % threads).take(2).subscribe(); }
                all.get(t).onNext(t << 24 | i);
            }
            all.get(t).onComplete();
        });
        for (Counting each : stay) { each.expect(items, true); }
        if (lone.next.get(0) != items || !lone.isOver) { wrong.add("the lone subscriber was told " + lone.next.get(0)); }
    }

    private static Observable<Integer> any(Random random, int depth, List<PublishSubject<Integer>> subjects, List<Observable<Integer>> shares) {
        int which = random.nextInt(depth == 0 ? 4 : 11);
        if (which < 2) { return subjects.get(random.nextInt(subjects.size())); }
        if (which == 2) { return random.nextBoolean() ? Observable.just(1) : Observable.range(0, 3); }
        if (which == 3) { return shares.isEmpty() ? Observable.never() : shares.get(random.nextInt(shares.size())); }
        Observable<Integer> below = any(random, depth - 1, subjects, shares);
        if (which < 6) { return held(below, which == 4); }
        if (which == 6) { return below.take(1 + random.nextInt(3)).map(v -> v + 1); }
        if (which == 7) {
            return Observable.defer(() -> {
                Resource mine = new Resource();
                return below.doFinally(mine::release);
            });
        }
        Observable<Integer> other = any(random, depth - 1, subjects, shares);
        return which == 8 ? below.flatMap(v -> other.take(2)) : which == 9 ? below.switchMap(v -> other) : below.takeUntil(other);
    }

    private static void random(int threads, long seconds, int seed) throws InterruptedException {
        List<PublishSubject<Integer>> subjects = subjects(6);
        List<Observable<Integer>> shares = new ArrayList<>();
        Random first = new Random(seed);
        for (int i = 0; i < 12; i++) { shares.add(any(first, 2, subjects, shares).share()); }
        long until = System.nanoTime() + seconds * 1_000_000_000;
        Queue<Disposable> left = new ConcurrentLinkedQueue<>();
        Thread[] running = new Thread[threads];
        all(threads, t -> {
            running[t] = Thread.currentThread();
            Random random = new Random(seed + 1000 * t);
            ArrayDeque<Hearer> mine = new ArrayDeque<>();
            while (System.nanoTime() < until) {
                Hearer hearer = new Hearer();
                pipelines.incrementAndGet();
                held(any(random, 3, subjects, shares), true).subscribe(hearer);
                mine.add(hearer);
                for (int i = random.nextInt(4); i > 0; i--) { subjects.get(random.nextInt(subjects.size())).onNext(i); }
                while (mine.size() > random.nextInt(8)) { (random.nextBoolean() ? mine.poll() : mine.pollLast()).dispose(); }
                Thread other = running[random.nextInt(threads)];
                if (other != null && random.nextInt(16) == 0) { other.interrupt(); }
            }
            left.addAll(mine);
        });
        left.forEach(Disposable::dispose);
        for (PublishSubject<Integer> each : subjects) { if (each.hasObservers()) { wrong.add("a subject has an observer yet"); } }
    }

    /** Pipelines that are dropped, not disposed of, while they are told items: each item is told, and behind it all are collected. */
    private static void dropped(int threads, int many) throws InterruptedException {
        AtomicLong pushed = new AtomicLong(), heard = new AtomicLong();
        all(threads, t -> {
            for (int i = 0; i < many; i++) {
                PublishSubject<Integer> s = PublishSubject.create(), other = PublishSubject.create();
                Observable<Integer> shared = s.map(v -> v + 1).share();
                Observable.merge(shared, other.flatMap(v -> shared.takeUntil(s))).filter(v -> v > 0).takeUntil(Observable.never()).subscribe(v -> heard.incrementAndGet());
                shared.switchMap(v -> other).subscribe(v -> heard.incrementAndGet());
                s.publish().connect();
                for (int k = 0; k < 3; k++) {
                    s.onNext(k);
                    pushed.incrementAndGet();
                }
            }
        });
        if (heard.get() != pushed.get()) { wrong.add("told " + heard + " of " + pushed + " to who was dropped"); }
        for (int i = 0; i < 200 && Arrays.stream(Engine.current().counts()).sum() > 0; i++) {
            System.gc();
            Thread.sleep(10);
            Collected.closeAll();
        }
    }

    public static void main(String[] words) throws Exception {
        int threads = words.length > 1 ? Integer.parseInt(words[1]) : 8;
        long until = System.nanoTime() + Integer.parseInt(words[0]) * 1_000_000_000L;
        RxJavaPlugins.setErrorHandler(why -> wrong.add("stray " + why));
        Hooks.install();
        int rounds = 0, items = 20_000;
        for (; rounds == 0 || System.nanoTime() < until && wrong.isEmpty(); rounds++) {
            ordered(threads, items);
            shared(threads, items / 10);
            random(threads, 2, rounds);
            dropped(threads, items / 20);
            if (made.get() != released.get()) { wrong.add("made " + made + ", released " + released); }
            String left = Arrays.toString(Engine.current().counts());
            if (!left.equals(Arrays.toString(new long[6]))) { wrong.add("left " + left); }
        }
        System.out.println(rounds + " rounds, " + threads + " threads, " + pipelines + " pipelines, " + told + " told, " + made + " resources");
        wrong.stream().distinct().limit(20).forEach(System.out::println);
        System.exit(wrong.isEmpty() ? 0 : 1);
    }
}
