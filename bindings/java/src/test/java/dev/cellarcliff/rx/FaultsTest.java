package dev.cellarcliff.rx;

import static dev.cellarcliff.rx.Tests.same;

import io.reactivex.rxjava3.core.Observable;
import io.reactivex.rxjava3.core.Observer;
import io.reactivex.rxjava3.disposables.Disposable;
import io.reactivex.rxjava3.subjects.PublishSubject;
import java.util.ArrayList;
import java.util.Arrays;
import java.util.List;
import java.util.concurrent.CountDownLatch;
import java.util.concurrent.atomic.AtomicInteger;

/** Stacks that end, threads that are interrupted, observers that raise, subscriptions that nobody can reach. */
class FaultsTest {
    private final AtomicInteger made = new AtomicInteger(), released = new AtomicInteger();

    private <T> Observable<T> held(Observable<T> source) {
        return Observable.using(made::incrementAndGet, it -> source, it -> released.incrementAndGet());
    }

    /** Waits until what nobody can reach is disposed of. */
    private static void expectCollected(Engine engine) throws InterruptedException {
        for (int i = 0; i < 100 && Arrays.stream(engine.counts()).sum() > 0; i++) {
            System.gc();
            Thread.sleep(10);
            Collected.closeAll();
        }
    }

    private void expectReleased(int many) {
        same(many, made.get());
        same(many, released.get());
    }

    /** An observer that hears everything, and does something with each item. */
    private static <T> Observer<T> raw(io.reactivex.rxjava3.functions.Consumer<T> next, Runnable ended) {
        return new Observer<T>() {
            @Override public void onSubscribe(Disposable given) { }
            @Override public void onNext(T v) {
                try {
                    next.accept(v);
                } catch (Throwable why) {
                    throw io.reactivex.rxjava3.internal.util.ExceptionHelper.wrapOrThrow(why);
                }
            }
            @Override public void onError(Throwable why) { ended.run(); }
            @Override public void onComplete() { ended.run(); }
        };
    }

    private static void inThread(long stack, Runnable work) throws Exception {
        Throwable[] raised = new Throwable[1];
        Thread thread = new Thread(null, work, "deep", stack);
        thread.setUncaughtExceptionHandler((t, why) -> raised[0] = why);
        thread.start();
        thread.join();
        if (raised[0] != null) { throw new AssertionError(raised[0]); }
    }

    /**
     * A chain of pipelines, each of which pushes into the next, until the stack ends somewhere within one. The C library may hand out the
     * stack of a thread that has ended, which can be four times as large as what is asked for; then the chain is too short, and is made longer.
     */
    void a_stack_that_ends_loses_nothing() throws Exception {
        inThread(400 << 10, () -> {
            for (int round = 0, many = 1000; round < 40; round++) {
                while (!endsItsStack(many, 7 * round)) { many *= 2; }
            }
        });
        Tests.strays.removeIf(why -> why.getCause() instanceof StackOverflowError || why instanceof StackOverflowError);
    }

    /** Whether the stack ended below a chain of so many; if not, the last of them was told. */
    private boolean endsItsStack(int many, int skew) {
        List<PublishSubject<Integer>> all = new ArrayList<>();
        List<Disposable> given = new ArrayList<>();
        int[] pushed = new int[1], told = new int[1];
        for (int i = 0; i < many; i++) { all.add(PublishSubject.create()); }
        for (int i = 0; i < many; i++) {
            int next = i + 1;
            given.add(new Io.DisposableHolder<>(held(all.get(i).flatMap(v -> Observable.just(v).hide())), v -> {
                told[0]++;
                pad(skew);
                if (next < many) {
                    pushed[0]++;
                    all.get(next).onNext(v);
                }
            }));
        }
        boolean hasEnded = false;
        pushed[0]++;
        try {
            all.get(0).onNext(skew);
        } catch (StackOverflowError why) {
            hasEnded = true;
        }
        same(true, told[0] + (hasEnded ? 1 : 0) >= pushed[0]);
        same(true, hasEnded || told[0] == many);
        for (Disposable each : given) { each.dispose(); }
        for (PublishSubject<Integer> each : all) { same(false, each.hasObservers()); }
        same(made.get(), released.get());
        return hasEnded;
    }

    private static int pad(int deep) { return deep == 0 ? 0 : 1 + pad(deep - 1); }

    void what_follows_a_stack_that_ended_is_told() throws Exception {
        PublishSubject<Integer> s = PublishSubject.create();
        Observable<Integer> shared = s.share();
        List<Integer> first = new ArrayList<>(), second = new ArrayList<>();
        Disposable a = new Io.DisposableHolder<>(shared, v -> {
            first.add(v);
            if (v == 1) { endless(0); }
        }), b = new Io.DisposableHolder<>(shared, second::add);
        inThread(400 << 10, () -> {
            try {
                s.onNext(1);
                throw new AssertionError("not raised");
            } catch (StackOverflowError why) {
                s.onNext(2);
            }
        });
        same(List.of(1), first);
        same(List.of(1, 2), second);
        a.dispose();
        b.dispose();
        same(false, s.hasObservers());
    }

    private static int endless(int deep) { return 1 + endless(deep + 1); }

    void an_observer_without_memory_is_disposed_of_and_the_others_are_told() {
        PublishSubject<Integer> s = PublishSubject.create();
        Observable<Integer> shared = held(s).share();
        int[] told = new int[1];
        shared.subscribe(raw(v -> { throw new OutOfMemoryError("observer"); }, () -> { }));
        Disposable b = shared.subscribe(v -> told[0] += v);
        try {
            s.onNext(1);
            throw new AssertionError("not raised");
        } catch (OutOfMemoryError why) {
            same("observer", why.getMessage());
        }
        s.onNext(2);
        same(3, told[0]);
        b.dispose();
        expectReleased(1);
    }

    void a_mapper_without_memory_ends_its_pipeline() {
        PublishSubject<Integer> s = PublishSubject.create();
        int[] ended = new int[1];
        held(s.switchMap(v -> { throw new OutOfMemoryError("mapper"); })).subscribe(raw(v -> { }, () -> ended[0]++));
        try {
            s.onNext(1);
            throw new AssertionError("not raised");
        } catch (OutOfMemoryError why) {
            same(1, ended[0]);
        }
        expectReleased(1);
    }

    /** Raises what is planted as it is called for the so-manieth time. */
    private static final class Planted {
        private final Throwable error;
        private int left;
        boolean isRaised;

        Planted(Throwable error, int at) {
            this.error = error;
            left = at;
        }

        void step() {
            if (left-- != 0) { return; }
            isRaised = true;
            throw io.reactivex.rxjava3.internal.util.ExceptionHelper.wrapOrThrow(error);
        }
    }

    private Observable<Integer> planted(Observable<Integer> source, boolean isEager, Planted fault) {
        return Observable.using(() -> {
            fault.step();
            return made.incrementAndGet();
        }, it -> {
            fault.step();
            return source;
        }, it -> {
            released.incrementAndGet();
            fault.step();
        }, isEager);
    }

    /** Each callback of a pipeline raises in its turn, as it is subscribed to, told items, and ended or disposed of: what was made is released, and a second pipeline goes on. */
    void what_is_raised_at_any_step_loses_nothing() {
        for (int way = 0; way < 3; way++) {
            for (Throwable error : List.of(new OutOfMemoryError("planted"), new StackOverflowError(), new IllegalStateException("planted"), new LinkageError("planted"))) {
                for (int at = 0;; at++) {
                    Planted fault = new Planted(error, at);
                    PublishSubject<Integer> s = PublishSubject.create(), other = PublishSubject.create();
                    Observable<Integer> shared = planted(s, true, fault).share();
                    Observable<Integer> all = planted(shared.filter(v -> {
                        fault.step();
                        return true;
                    }).flatMap(v -> {
                        fault.step();
                        return planted(Observable.just(v).hide(), false, fault);
                    }).concatMap(v -> {
                        fault.step();
                        return v == 1 ? other : Observable.just(v);
                    }).switchMap(v -> planted(Observable.just(v), true, fault)).takeUntil(Observable.never()).doFinally(fault::step), true, fault);
                    int[] told = new int[1];
                    Disposable[] given = new Disposable[1];
                    Observer<Integer> observer = new Observer<Integer>() {
                        @Override public void onSubscribe(Disposable it) {
                            given[0] = it;
                            fault.step();
                        }
                        @Override public void onNext(Integer v) { fault.step(); }
                        @Override public void onError(Throwable why) { fault.step(); }
                        @Override public void onComplete() { fault.step(); }
                    };
                    Disposable[] second = {Disposable.disposed()};
                    int ending = way;
                    for (Runnable each : List.<Runnable>of(() -> second[0] = shared.subscribe(v -> told[0]++, why -> { }), () -> all.subscribe(observer), () -> s.onNext(1), () -> s.onNext(2), other::onComplete, () -> {
                        if (ending == 0) { s.onComplete(); } else if (ending == 1) { s.onError(new Exception("end")); }
                    }, () -> { if (given[0] != null) { given[0].dispose(); } }, () -> second[0].dispose())) {
                        try {
                            each.run();
                        } catch (Throwable why) {
                            same(true, fault.isRaised);
                        }
                    }
                    same(true, told[0] == 2 || fault.isRaised);
                    same(false, s.hasObservers() || other.hasObservers());
                    expectReleased(made.get());
                    same(Arrays.toString(new long[6]), Arrays.toString(Engine.current().counts()));
                    if (!fault.isRaised) { break; }
                }
            }
        }
        Tests.strays.clear();
    }

    void an_interrupt_within_an_observer_loses_nothing() throws Exception {
        PublishSubject<Integer> s = PublishSubject.create();
        CountDownLatch isIn = new CountDownLatch(1);
        List<Object> log = new ArrayList<>();
        held(s).subscribe(v -> {
            if (v == 1) {
                isIn.countDown();
                try {
                    Thread.sleep(60_000);
                } catch (InterruptedException why) {
                    log.add("interrupted");
                    Thread.currentThread().interrupt();
                }
            }
            log.add(v);
        }, log::add, () -> log.add("end"));
        Thread one = new Thread(() -> s.onNext(1));
        one.start();
        isIn.await();
        s.onNext(2);  // waits for the one before, so this thread goes on
        s.onComplete();
        same(0, released.get());
        one.interrupt();
        one.join();
        same(List.of("interrupted", 1, 2, "end"), log);
        expectReleased(1);
    }

    void a_blocked_observer_does_not_keep_others() throws Exception {
        PublishSubject<Integer> s = PublishSubject.create(), other = PublishSubject.create();
        CountDownLatch isIn = new CountDownLatch(1), mayGo = new CountDownLatch(1);
        Disposable blocked = held(s).subscribe(v -> {
            isIn.countDown();
            mayGo.await();
        });
        int[] told = new int[1];
        held(other).subscribe(v -> told[0] += v);
        Thread one = new Thread(() -> s.onNext(1));
        one.start();
        isIn.await();
        other.onNext(5);
        same(5, told[0]);
        blocked.dispose();
        same(false, s.hasObservers());
        other.onComplete();
        same(1, released.get());  // the other's: the blocked observer's is released behind it
        mayGo.countDown();
        one.join();
        expectReleased(2);
    }

    private static void inAnother(Runnable work) throws InterruptedException {
        Thread thread = new Thread(work);
        thread.start();
        thread.join();
    }

    /** Items are told ahead of the engine by whichever thread comes, each within another's. */
    void threads_take_turns_to_tell() throws Exception {
        PublishSubject<Integer> s = PublishSubject.create(), other = PublishSubject.create();
        List<Object> told = new ArrayList<>();
        Disposable[] given = {held(s).subscribe(told::add), held(other).subscribe(v -> {
            told.add(v);
            s.onNext(v + 1);
        })};
        for (Runnable each : List.<Runnable>of(() -> s.onNext(1), () -> s.onNext(2), () -> other.onNext(10), () -> s.onNext(3), given[1]::dispose, () -> s.onNext(4), given[0]::dispose)) { inAnother(each); }
        same(List.of(1, 2, 10, 11, 3, 4), told);
        expectReleased(2);
    }

    /** What a thread tells ahead is the engine's as another one comes there, and so is what it tells around that. */
    void what_is_told_ahead_is_given_as_another_comes() throws Exception {
        PublishSubject<Integer> s = PublishSubject.create(), other = PublishSubject.create(), more = PublishSubject.create();
        List<Object> told = new ArrayList<>();
        Disposable outer = held(s).subscribe(v -> {
            told.add(v);
            other.onNext(10 * v);
            told.add(-v);
        });
        held(other.mergeWith(more)).subscribe(v -> {
            told.add(v);
            if (v != 10) { return; }
            inAnother(() -> more.onNext(20));
            inAnother(outer::dispose);
            same(List.of(1, 10), told);  // both wait for what is being told
            same(0, released.get());
            same(false, s.hasObservers());
        });
        s.onNext(1);
        same(List.of(1, 10, 20, -1), told);
        same(1, released.get());
        other.onComplete();
        more.onComplete();
        expectReleased(2);
    }

    /** Of an item that a share tells ahead each subscriber hears that was there, unless it leaves meanwhile. */
    void a_share_changes_within_an_item() throws Exception {
        PublishSubject<Integer> s = PublishSubject.create();
        Observable<Integer> shared = held(s).share();
        List<String> told = new ArrayList<>();
        Disposable[] given = new Disposable[4];
        for (int i = 0; i < 3; i++) {
            int number = i;
            given[i] = shared.subscribe(v -> {
                told.add(number + ":" + v);
                if (number != 1 || v != 2) { return; }
                given[2].dispose();
                given[3] = shared.subscribe(it -> told.add("3:" + it));
                inAnother(() -> s.onNext(3));
            });
        }
        s.onNext(1);
        s.onNext(2);
        s.onNext(4);
        same(List.of("0:1", "1:1", "2:1", "0:2", "1:2", "0:3", "1:3", "3:3", "0:4", "1:4", "3:4"), told);
        for (int i : new int[] {0, 1, 3}) { given[i].dispose(); }
        expectReleased(1);
        same(false, s.hasObservers());
    }

    void what_nobody_can_reach_is_released() throws Exception {
        Engine engine = Engine.current();
        for (int i = 0; i < 2000; i++) {
            PublishSubject<Integer> s = PublishSubject.create();
            Observable<Integer> shared = i % 2 == 0 ? s.share() : held(s).takeUntil(Observable.never()).share();
            Observable.merge(held(s.flatMap(Observable::just)), shared, shared.switchMap(v -> s)).takeUntil(Observable.never()).subscribe();
            shared.subscribe();
            s.publish().connect();
            s.onNext(1);
        }
        expectCollected(engine);
        expectReleased(2000 + 1000);
    }

    /** RxJava's own replay stands over the engine's operators: what they hold is released with it. */
    void what_is_replayed_is_released_as_its_subscribers_leave_or_nobody_can_reach_it() throws Exception {
        PublishSubject<Integer> s = PublishSubject.create();
        List<Integer> first = new ArrayList<>(), second = new ArrayList<>();
        Observable<Integer> replayed = held(s.switchMap(v -> held(Observable.just(v).hide()))).replay(2).refCount();
        Disposable one = replayed.subscribe(first::add);
        for (int i = 0; i < 3; i++) { s.onNext(i); }
        Disposable other = replayed.subscribe(second::add);
        s.onNext(3);
        one.dispose();
        same(4, released.get());
        other.dispose();
        same(List.of(0, 1, 2, 3), first);
        same(List.of(1, 2, 3), second);
        expectReleased(5);
        held(PublishSubject.create()).replay().connect();
        expectCollected(Engine.current());
        expectReleased(6);
    }

    /** All that nobody can reach is collected at once, but its guards hear of it one after another. */
    void what_is_disposed_of_before_its_own_guard_hears_is_released() {
        for (boolean isShared : new boolean[] {false, true}) {
            PublishSubject<Integer> s = PublishSubject.create();
            List<Tree> all = new ArrayList<>();
            Observable<Integer> below = isShared ? held(s).share() : held(s);
            held(below.doOnSubscribe(given -> all.add((Root) given))).doOnSubscribe(given -> all.add((Root) given)).subscribe();
            if (isShared) { all.add(((RefCount) (Observable<?>) below).share.connection); }
            for (Tree each : all) { each.ref.clear(); }
            Tree outer = all.get(0);
            same(true, outer.engine.isAbandoned(outer));
            outer.engine.disposeOf(outer);
            same(made.get(), released.get());
            same(false, s.hasObservers());
        }
        expectReleased(4);
    }

    void what_somebody_can_reach_stays() throws Exception {
        PublishSubject<Integer> s = PublishSubject.create();
        AtomicInteger told = new AtomicInteger();
        Observable<Integer> shared = s.share();
        shared.subscribe(v -> told.addAndGet(v));                               // its source has it
        held(s.flatMap(v -> shared.take(1))).subscribe(v -> told.addAndGet(v));
        Disposable given = held(Observable.<Integer>never()).subscribe();       // its disposable has it
        for (int i = 0; i < 5; i++) {
            System.gc();
            Thread.sleep(10);
            Collected.closeAll();
        }
        s.onNext(1);
        s.onNext(10);
        same(1 + 10 + 10, told.get());
        given.dispose();
        same(1, released.get());
        s.onComplete();
        expectReleased(2);
    }
}
