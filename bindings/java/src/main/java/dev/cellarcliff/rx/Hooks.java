package dev.cellarcliff.rx;

import io.reactivex.rxjava3.core.Completable;
import io.reactivex.rxjava3.core.Flowable;
import io.reactivex.rxjava3.core.Maybe;
import io.reactivex.rxjava3.core.Observable;
import io.reactivex.rxjava3.core.Single;
import io.reactivex.rxjava3.functions.Function;
import io.reactivex.rxjava3.observables.ConnectableObservable;
import io.reactivex.rxjava3.plugins.RxJavaPlugins;
import java.util.List;

/** Puts the operators over the engine in the place of RxJava's own, by its assembly hooks: programs stay as they are. */
@SuppressWarnings("rawtypes")
public final class Hooks {
    private static Hook<Observable> observable = new Hook<>(null);
    private static Hook<ConnectableObservable> connectable = new Hook<>(null);
    private static Hook<Flowable> flowable = new Hook<>(null);
    private static Hook<Single> single = new Hook<>(null);
    private static Hook<Maybe> maybe = new Hook<>(null);
    private static Hook<Completable> completable = new Hook<>(null);

    private Hooks() { }

    /** What is assembled from now on has the engine's operators, behind hooks that were there before. What was assembled stays as it is. */
    public static synchronized void install() {
        if (RxJavaPlugins.getOnObservableAssembly() == observable) { return; }
        uninstall();
        History.keepAsAsked();
        Engine.current();
        RxJavaPlugins.setOnObservableAssembly(observable = new Hook<>(RxJavaPlugins.getOnObservableAssembly()));
        RxJavaPlugins.setOnConnectableObservableAssembly(connectable = new Hook<>(RxJavaPlugins.getOnConnectableObservableAssembly()));
        RxJavaPlugins.setOnFlowableAssembly(flowable = new Hook<>(RxJavaPlugins.getOnFlowableAssembly()));
        RxJavaPlugins.setOnSingleAssembly(single = new Hook<>(RxJavaPlugins.getOnSingleAssembly()));
        RxJavaPlugins.setOnMaybeAssembly(maybe = new Hook<>(RxJavaPlugins.getOnMaybeAssembly()));
        RxJavaPlugins.setOnCompletableAssembly(completable = new Hook<>(RxJavaPlugins.getOnCompletableAssembly()));
    }

    /** What is assembled from now on has RxJava's operators, or those of the hooks that were there before. */
    public static synchronized void uninstall() {
        observable.isOn = connectable.isOn = flowable.isOn = single.isOn = maybe.isOn = completable.isOn = false;
        if (RxJavaPlugins.getOnObservableAssembly() == observable) { RxJavaPlugins.setOnObservableAssembly(observable.before); }
        if (RxJavaPlugins.getOnConnectableObservableAssembly() == connectable) { RxJavaPlugins.setOnConnectableObservableAssembly(connectable.before); }
        if (RxJavaPlugins.getOnFlowableAssembly() == flowable) { RxJavaPlugins.setOnFlowableAssembly(flowable.before); }
        if (RxJavaPlugins.getOnSingleAssembly() == single) { RxJavaPlugins.setOnSingleAssembly(single.before); }
        if (RxJavaPlugins.getOnMaybeAssembly() == maybe) { RxJavaPlugins.setOnMaybeAssembly(maybe.before); }
        if (RxJavaPlugins.getOnCompletableAssembly() == completable) { RxJavaPlugins.setOnCompletableAssembly(completable.before); }
    }

    /** Operators that stay RxJava's, since this version of RxJava has them otherwise or does not show their fields; and why. */
    public static List<String> missing() { return Parts.missing(); }

    private static final class Hook<T> implements Function<T, T> {
        final Function<? super T, ? extends T> before;
        /** A hook that others have put theirs around stays where it is, and does nothing more. */
        volatile boolean isOn = true;

        Hook(Function<? super T, ? extends T> before) { this.before = before; }

        @Override public T apply(T given) throws Throwable {
            T first = before == null ? given : before.apply(given);
            return isOn ? Parts.exchange(first) : first;
        }
    }
}
