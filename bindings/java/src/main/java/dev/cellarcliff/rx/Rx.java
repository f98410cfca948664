package dev.cellarcliff.rx;

import io.reactivex.rxjava3.core.Observable;
import io.reactivex.rxjava3.core.ObservableSource;
import io.reactivex.rxjava3.core.ObservableTransformer;
import io.reactivex.rxjava3.functions.Action;
import io.reactivex.rxjava3.functions.Consumer;
import io.reactivex.rxjava3.functions.Function;
import io.reactivex.rxjava3.functions.Supplier;
import io.reactivex.rxjava3.observables.ConnectableObservable;

/**
 * The operators over the engine, by hand: {@code source.compose(Rx.switchMap(mapper))}. With {@link Hooks#install()} RxJava's own calls
 * make them.
 */
@SuppressWarnings({"unchecked", "varargs"})
public final class Rx {
    private Rx() { }

    /** A resource for as long as its source is subscribed to, released before the end is told. */
    public static <T, D> Observable<T> using(Supplier<? extends D> supplier, Function<? super D, ? extends ObservableSource<? extends T>> source,
            Consumer<? super D> disposer) {
        return using(supplier, source, disposer, true);
    }

    /** The same, released before the end is told or behind it. */
    public static <T, D> Observable<T> using(Supplier<? extends D> supplier, Function<? super D, ? extends ObservableSource<? extends T>> source,
            Consumer<? super D> disposer, boolean eager) {
        return (Observable<T>) new Using(supplier, (Function<Object, ?>) source, (Consumer<Object>) disposer, eager);
    }

    /** Merges what the items are mapped to. */
    public static <T, R> ObservableTransformer<T, R> flatMap(Function<? super T, ? extends ObservableSource<? extends R>> mapper) { return flatMap(mapper, Integer.MAX_VALUE); }

    /** Merges what the items are mapped to, of which at most so many are subscribed to at a time: one or more. */
    public static <T, R> ObservableTransformer<T, R> flatMap(Function<? super T, ? extends ObservableSource<? extends R>> mapper, int most) {
        if (most < 1) { throw new IllegalArgumentException("at most " + most + " sources at a time"); }
        return source -> (Observable<R>) new Merge(source, (Function<Object, ?>) mapper, Merge.Manner.FLAT, most);
    }

    /** What the items are mapped to, one after another. */
    public static <T, R> ObservableTransformer<T, R> concatMap(Function<? super T, ? extends ObservableSource<? extends R>> mapper) {
        return source -> (Observable<R>) new Merge(source, (Function<Object, ?>) mapper, Merge.Manner.CONCAT);
    }

    /** The latest of what the items are mapped to. */
    public static <T, R> ObservableTransformer<T, R> switchMap(Function<? super T, ? extends ObservableSource<? extends R>> mapper) {
        return source -> (Observable<R>) new Merge(source, (Function<Object, ?>) mapper, Merge.Manner.SWITCH);
    }

    /** Merges sources. */
    @SafeVarargs
    public static <T> Observable<T> merge(ObservableSource<? extends T>... sources) {
        Function<Object, ?> same = source -> source;
        return (Observable<T>) new Merge(Observable.fromArray(sources), same, Merge.Manner.FLAT);
    }

    /** The source until the notifier tells something. */
    public static <T> ObservableTransformer<T, T> takeUntil(ObservableSource<?> notifier) {
        return source -> (Observable<T>) new Until(source, notifier);
    }

    /** An action behind the end, or behind the disposal. */
    public static <T> ObservableTransformer<T, T> doFinally(Action action) { return source -> (Observable<T>) new Finally(source, action); }

    /** One connection for all subscribers, made by hand. */
    public static <T> ConnectableObservable<T> publish(ObservableSource<T> source) { return (ConnectableObservable<T>) new Published(source); }

    /** One connection for all subscribers, as long as there is one. */
    public static <T> ObservableTransformer<T, T> share() { return source -> (Observable<T>) new RefCount(new Published(source), null); }
}
