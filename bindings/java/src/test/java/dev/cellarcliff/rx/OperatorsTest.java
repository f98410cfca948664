package dev.cellarcliff.rx;

import static dev.cellarcliff.rx.Tests.same;

import io.reactivex.rxjava3.core.Flowable;
import io.reactivex.rxjava3.core.Observable;
import io.reactivex.rxjava3.disposables.Disposable;
import io.reactivex.rxjava3.functions.Function;
import io.reactivex.rxjava3.processors.PublishProcessor;
import io.reactivex.rxjava3.subjects.PublishSubject;
import io.reactivex.rxjava3.subscribers.TestSubscriber;
import java.util.ArrayList;
import java.util.List;

/** The operators one by one. What is expected is what RxJava's documentation says. */
class OperatorsTest {
    private final List<Object> log = new ArrayList<>();
    private final PublishSubject<Integer> s = PublishSubject.create(), other = PublishSubject.create();

    private Disposable told(Observable<?> source) { return source.subscribe(log::add, why -> log.add("error " + why.getMessage()), () -> log.add("end")); }

    private <T> Observable<T> held(String name, Observable<T> source, boolean isEager) {
        return Observable.using(() -> log.add("made " + name), made -> source, made -> log.add("released " + name), isEager);
    }

    private void expect(Object... expected) {
        same(List.of(expected), log);
        log.clear();
    }

    void hooks_put_the_operators_in_place() {
        same(List.of(), Hooks.missing());
        Function<Integer, Observable<Integer>> mapper = Observable::just;
        for (Observable<?> each : List.of(held("r", s, true), s.flatMap(mapper), s.switchMap(mapper), s.takeUntil(other), s.doFinally(() -> { }), s.publish(), s.share(),
                Observable.merge(s, other), s.mergeWith(other), s.flatMap(mapper, 2), s.concatMap(mapper), Observable.concat(s, other))) {
            same(true, each instanceof Operator);
        }
        for (Observable<?> each : List.of(s.flatMap(mapper, true), s.concatMapDelayError(mapper), s.switchMapDelayError(mapper), s.publish().refCount(2), s.map(v -> v))) {
            same(false, each instanceof Operator);
        }
        Hooks.uninstall();
        same(false, s.share() instanceof Operator);
    }

    void a_resource_is_released_before_the_end_or_behind_it() {
        told(held("r", s, true));
        s.onNext(1);
        s.onComplete();
        expect("made r", 1, "released r", "end");
        told(held("r", other, false));
        other.onNext(1);
        other.onError(new Exception("e"));
        expect("made r", 1, "error e", "released r");
    }

    void a_resource_is_released_where_the_user_disposes() {
        Disposable d = told(held("outer", held("inner", s, true), false));
        d.dispose();
        d.dispose();
        same(true, d.isDisposed());
        same(false, s.hasObservers());
        expect("made outer", "made inner", "released inner", "released outer");
    }

    void an_eager_release_comes_before_the_source_is_disposed_of() {
        told(held("eager", s.doOnDispose(() -> log.add("disposed")), true)).dispose();
        expect("made eager", "released eager", "disposed");
        told(held("lazy", s.doOnDispose(() -> log.add("disposed")), false)).dispose();
        expect("made lazy", "disposed", "released lazy");
    }

    void what_an_eager_release_raises_is_told() {
        told(Observable.using(() -> 1, r -> s, r -> { throw new Exception("release"); }));
        s.onComplete();
        expect("error release");
        told(Observable.using(() -> 1, r -> Observable.error(new Exception("source")), r -> { throw new Exception("release"); }));
        expect("error 2 exceptions occurred. ");
    }

    void what_a_late_release_raises_goes_to_the_hook() {
        told(Observable.using(() -> 1, r -> Observable.empty(), r -> { throw new Exception("release"); }, false));
        expect("end");
        same("release", Tests.strays.remove(0).getCause().getMessage());
    }

    void nothing_is_made_where_the_supplier_fails() {
        told(Observable.using(() -> { throw new Exception("make"); }, r -> s, r -> log.add("released")));
        expect("error make");
        told(Observable.using(() -> 1, r -> { throw new Exception("source"); }, r -> log.add("released")));
        expect("released", "error source");
    }

    void flat_map_merges() {
        told(s.flatMap(v -> v == 0 ? other : Observable.just(v, -v)));
        s.onNext(0);
        s.onNext(1);
        other.onNext(7);
        s.onComplete();
        other.onNext(8);
        other.onComplete();
        expect(1, -1, 7, 8, "end");
    }

    void so_many_at_a_time() {
        List<PublishSubject<Integer>> inners = List.of(PublishSubject.create(), PublishSubject.create(), PublishSubject.create(), PublishSubject.create());
        told(s.flatMap(v -> {
            log.add("mapped " + v);
            return held(String.valueOf(v), inners.get(v), v % 2 == 0);
        }, 2));
        for (int i = 0; i < 4; i++) { s.onNext(i); }
        s.onComplete();
        expect("mapped 0", "made 0", "mapped 1", "made 1", "mapped 2", "mapped 3");
        inners.get(1).onNext(10);
        inners.get(1).onComplete();
        expect(10, "released 1", "made 2");
        inners.get(0).onComplete();
        expect("released 0", "made 3");
        inners.get(3).onComplete();
        inners.get(2).onComplete();
        expect("released 3", "released 2", "end");
    }

    void one_after_another() {
        told(s.concatMap(v -> {
            log.add("mapped " + v);
            return v == 0 ? held("r", other, true) : v < 3 ? Observable.just(v) : Observable.empty();
        }));
        for (int i = 0; i < 4; i++) { s.onNext(i); }
        s.onComplete();
        other.onNext(7);
        other.onComplete();
        expect("mapped 0", "made r", 7, "released r", "mapped 1", 1, "mapped 2", 2, "mapped 3", "end");
    }

    void a_flowable_that_is_asked_for_everything_is_the_engines() {
        PublishProcessor<Integer> p = PublishProcessor.create();
        Flowable<Integer> all = Flowable.using(() -> log.add("made"), it -> p, it -> log.add("released")).map(v -> v + 1).switchMap(v -> Flowable.just(v)).doFinally(() -> log.add("finally"));
        all.subscribe(log::add);
        same(2L, Engine.current().counts()[1]);
        p.onNext(1);
        p.onComplete();
        expect("made", 2, "released", "finally");
        PublishProcessor<Integer> q = PublishProcessor.create();
        TestSubscriber<Integer> few = Flowable.using(() -> log.add("made"), it -> q, it -> log.add("released")).test(1);
        same(0L, Engine.current().counts()[1]);
        q.onNext(1);
        few.assertValue(1).cancel();
        expect("made", "released");
    }

    void a_flowable_is_asked_for_as_many_as_there_is_room_for() {
        List<PublishProcessor<Integer>> inners = List.of(PublishProcessor.create(), PublishProcessor.create(), PublishProcessor.create());
        Flowable<Integer> source = Flowable.range(0, 3).doOnRequest(v -> log.add("asked for " + v));
        source.filter(v -> v < 3).flatMap(v -> inners.get(v), 2).subscribe(log::add, why -> log.add(why), () -> log.add("end"));
        expect("asked for 2");
        inners.get(0).onComplete();
        expect("asked for 1");
        inners.get(2).onNext(5);
        inners.get(1).onComplete();
        inners.get(2).onComplete();
        log.removeIf("asked for 1"::equals);
        expect(5, "end");
        int[] told = new int[1];
        Flowable.range(0, 100_000).concatMap(v -> v % 2 == 0 ? Flowable.just(v).hide() : Flowable.just(v)).subscribe(v -> told[0]++);
        same(100_000, told[0]);
    }

    void disposables_are_disposed_of_once() {
        CompositeDisposable all = new CompositeDisposable();
        SerialDisposable latest = new SerialDisposable();
        Disposable kept = Disposable.fromAction(() -> log.add("kept"));
        all.addAll(latest, kept, Disposable.fromAction(() -> log.add("other")));
        latest.set(Disposable.fromAction(() -> log.add("first")));
        latest.set(Disposable.fromAction(() -> log.add("second")));
        expect("first");
        same(true, all.delete(kept));
        all.dispose();
        same(true, log.remove("second") && log.remove("other"));
        latest.set(Disposable.fromAction(() -> log.add("late")));
        same(false, all.add(Disposable.fromAction(() -> log.add("later"))));
        expect("late", "later");
        same(false, kept.isDisposed());
    }

    void the_history_says_where_what_is_open_was_subscribed_to() {
        same(true, Engine.current().history() == null);
        Engine kept = Engine.renew(1 << 16, new History());
        Disposable d = held("r", s, true).share().subscribe();
        int line = new Throwable().getStackTrace()[0].getLineNumber() - 1;
        String text = History.text();
        same(true, text.startsWith("{\"dump\":[[") && text.contains("\"resource OperatorsTest.java:" + line + '"') && text.contains("\"OperatorsTest.java:" + line + '"'));
        same(true, text.contains("[[\"hub\",\"auto\"],[\"open\",\"root\",\"sub\",0],[\"connect\",0],[\"open\",\"source\",2,"));
        same(2, text.split("hub").length);
        d.dispose();
        same("[0, 0, 0, 0, 0, 0]", java.util.Arrays.toString(kept.counts()));
        log.clear();
    }

    void what_waits_is_forgotten_where_it_ends() {
        Disposable d = told(s.concatMap(v -> held(String.valueOf(v), other, true)));
        s.onNext(0);
        s.onNext(1);
        d.dispose();
        other.onComplete();
        expect("made 0", "released 0");
        PublishSubject<Integer> t = PublishSubject.create(), inner = PublishSubject.create();
        told(t.concatMap(v -> inner));
        t.onNext(0);
        t.onNext(1);
        inner.onError(new Exception("inner"));
        expect("error inner");
        same(false, t.hasObservers());
    }

    void a_hundred_thousand_wait_for_their_turn() {
        int[] told = new int[1];
        Observable.range(0, 100_000).concatMap(v -> v == 0 ? other : v % 2 == 0 ? Observable.just(v).hide() : Observable.just(v)).subscribe(v -> told[0]++);
        same(0, told[0]);
        other.onComplete();
        same(99_999, told[0]);
    }

    void flat_map_of_one_item_and_of_none() {
        told(s.flatMap(v -> v % 2 == 0 ? Observable.empty() : Observable.just(v)));
        s.onNext(1);
        s.onNext(2);
        s.onNext(3);
        s.onComplete();
        expect(1, 3, "end");
    }

    void a_mapper_that_fails_ends_all() {
        told(s.flatMap(v -> v == 2 ? null : other));
        s.onNext(1);
        s.onNext(2);
        expect("error The mapper returned a null ObservableSource");
        same(false, s.hasObservers() || other.hasObservers());
        PublishSubject<Integer> t = PublishSubject.create();
        told(t.switchMap(v -> { throw new Exception("mapper"); }));
        t.onNext(1);
        expect("error mapper");
    }

    void switch_map_has_the_latest_alone() {
        told(s.switchMap(v -> v == 0 ? held("zero", other, true) : Observable.just(v)));
        s.onNext(0);
        other.onNext(5);
        s.onNext(1);
        other.onNext(6);
        s.onComplete();
        expect("made zero", 5, "released zero", 1, "end");
        same(false, other.hasObservers());
    }

    void an_observer_that_pushes_exchanges_at_once() {
        s.switchMap(v -> Observable.range(v, 5)).subscribe(v -> {
            log.add(v);
            if (v == 1) { s.onNext(2); }
        });
        s.onNext(1);
        s.onComplete();
        expect(1, 2, 3, 4, 5, 6);
    }

    void take_until_ends_with_its_notifier() {
        told(s.takeUntil(other));
        s.onNext(1);
        other.onNext(0);
        s.onNext(2);
        expect(1, "end");
        same(false, s.hasObservers() || other.hasObservers());
    }

    void finally_comes_behind_the_end() {
        told(s.doFinally(() -> log.add("inner")).doFinally(() -> log.add("outer")));
        s.onComplete();
        expect("end", "outer", "inner");
        told(other.doFinally(() -> log.add("finally"))).dispose();
        expect("finally");
    }

    void a_pushed_item_waits_for_the_one_before() {
        Observable.merge(s, other).subscribe(v -> {
            log.add("begin " + v);
            if (v == 1) { other.onNext(2); }
            log.add("done " + v);
        });
        s.onNext(1);
        s.onComplete();
        other.onComplete();
        expect("begin 1", "done 1", "begin 2", "done 2");
    }

    void who_disposes_within_an_item_gets_no_more() {
        Disposable[] d = new Disposable[1];
        d[0] = held("r", Observable.merge(s, other), true).subscribe(v -> {
            log.add(v);
            other.onNext(2);
            d[0].dispose();
            log.add("done");
        });
        s.onNext(1);
        expect("made r", 1, "released r", "done");
    }

    void an_observer_that_raises_is_disposed_of() {
        held("r", s, true).subscribe(new io.reactivex.rxjava3.core.Observer<Integer>() {
            @Override public void onSubscribe(Disposable given) { }
            @Override public void onNext(Integer v) { throw new IllegalStateException("observer"); }
            @Override public void onError(Throwable why) { log.add(why); }
            @Override public void onComplete() { log.add("end"); }
        });
        try {
            s.onNext(1);
            log.add("not raised");
        } catch (IllegalStateException why) {
            log.add(why.getMessage());
        }
        expect("made r", "released r", "observer");
        same(false, s.hasObservers());
    }

    void one_who_disposes_as_he_subscribes_gets_nothing() {
        io.reactivex.rxjava3.observers.TestObserver<Integer> observer = new io.reactivex.rxjava3.observers.TestObserver<>();
        observer.dispose();
        held("r", s, true).subscribe(observer);
        s.doFinally(() -> log.add("finally")).subscribe(observer);
        expect("finally");
        same(false, s.hasObservers());
    }

    void by_hand_without_hooks() {
        Hooks.uninstall();
        told(Rx.<Integer, Integer>using(() -> 1, r -> Rx.merge(s, other), r -> log.add("released"))
            .compose(Rx.switchMap(v -> Observable.just(v))).compose(Rx.flatMap(v -> Observable.just(v))).compose(Rx.takeUntil(Observable.never())).compose(Rx.doFinally(() -> log.add("finally"))));
        s.onNext(1);
        s.onComplete();
        other.onComplete();
        expect(1, "released", "end", "finally");
    }

    void functions_between_operators_stay_in_one_tree() {
        int[] called = new int[1];
        Observable<Integer> shared = held("r", s, true).map(v -> {
            called[0]++;
            return v;
        }).share();
        Disposable a = told(shared.flatMap(v -> held("inner", other, false)).filter(v -> v > 1).map(v -> 10 / v).switchMap(v -> Observable.just(v).hide()).map(v -> -v).doFinally(() -> log.add("finally")));
        Disposable b = told(shared.filter(v -> v > 1).takeUntil(Observable.never().filter(v -> true)));
        s.onNext(1);
        s.onNext(2);
        same(2, called[0]);
        expect("made r", "made inner", "made inner", 2);
        other.onNext(1);
        other.onNext(5);
        expect(-2, -2);
        same(5L, Engine.current().counts()[4]);  // the subscriptions, the connection, what its map reads, and the share below a filter
        a.dispose();
        b.dispose();
        log.clear();
    }

    void a_function_that_fails_ends_all() {
        told(held("r", s, true).map(v -> 10 / v).doFinally(() -> log.add("finally")));
        s.onNext(5);
        s.onNext(0);
        same(true, log.remove("finally"));
        expect("made r", 2, "released r", "error / by zero");
        same(false, s.hasObservers());
        told(held("r", other, true).filter(v -> 10 / v > 0).flatMap(v -> Observable.just(v)));
        other.onNext(0);
        expect("made r", "released r", "error / by zero");
    }

    void what_an_item_opens_on_its_two_ways_is_released() {
        Observable<Integer> shared = s.share();
        Disposable d = told(Observable.merge(shared, shared.map(v -> -v)).switchMap(v -> v > 0 ? held("first", Observable.error(new Exception("7")), true) : held("second", Observable.never(), true)));
        s.onNext(1);
        d.dispose();
        expect("made first", "released first", "error 7");
        same(false, s.hasObservers());
    }

    void a_share_that_fails_midway_connects_for_nobody_no_more() {
        Observable<Integer> shared = held("r", s, true).share();
        Observable<Integer> checked = shared.flatMap(v -> {
            if (v == 2) { throw new Exception("7"); }
            return Observable.just(v);
        }).share();
        Disposable a = told(checked), b = told(shared.switchMap(v -> checked));
        s.onNext(1);
        s.onNext(2);
        a.dispose();
        b.dispose();
        same(2L, log.stream().filter("error 7"::equals).count());
        same(1L, log.stream().filter("made r"::equals).count());
        same(1L, log.stream().filter("released r"::equals).count());
        same(false, s.hasObservers());
        log.clear();
    }

    void a_null_source_of_a_flowable_is_told_of_by_its_own_name() {
        Flowable<Integer> one = Flowable.just(1).hide();
        List<String> told = new ArrayList<>();
        for (Flowable<Object> each : List.of(Flowable.using(() -> 1, it -> null, it -> { }), one.flatMap(it -> null), one.switchMap(it -> null), one.concatMap(it -> null))) {
            each.subscribe(v -> { }, why -> told.add(why.getMessage()));
        }
        same(List.of("The sourceSupplier returned a null Publisher", "The mapper returned a null Publisher", "The mapper returned a null Publisher", "The mapper returned a null Publisher"), told);
    }

    void a_bounded_flatMap_that_fails_asks_its_source_for_nothing_more() {
        for (boolean isFailing : new boolean[] {true, false}) {
            PublishProcessor<Integer> inner = PublishProcessor.create();
            List<Object> told = new ArrayList<>();
            Disposable given = Flowable.range(1, 9).doOnRequest(told::add).flatMap(v -> v == 1 ? inner : Flowable.never(), 2).subscribe(told::add, why -> told.add(why.getMessage()));
            inner.onNext(5);
            if (isFailing) { inner.onError(new Exception("inner")); } else { given.dispose(); }
            same(isFailing ? List.of(2L, 5, "inner") : List.of(2L, 5), told);
        }
    }

    void a_concatMap_asks_a_flowable_for_more_as_it_maps() {
        for (boolean isTheirs : new boolean[] {true, false}) {
            List<Object> told = new ArrayList<>();
            if (isTheirs) { Hooks.uninstall(); }
            List<PublishProcessor<Integer>> inner = List.of(PublishProcessor.create(), PublishProcessor.create(), PublishProcessor.create(), PublishProcessor.create());
            Disposable given = Flowable.range(0, 99).doOnRequest(told::add).concatMap(inner::get).subscribe(told::add);
            for (int i = 0; i < 3; i++) {
                inner.get(i).onNext(10 + i);
                inner.get(i).onComplete();
            }
            given.dispose();
            Hooks.install();
            same(List.of(2L, 10, 2L, 11, 12, 2L), told);
        }
    }
}
