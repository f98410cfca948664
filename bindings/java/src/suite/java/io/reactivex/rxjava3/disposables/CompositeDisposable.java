package io.reactivex.rxjava3.disposables;

/** In the place of RxJava's class, the engine's. */
public final class CompositeDisposable extends dev.cellarcliff.rx.CompositeDisposable {
    public CompositeDisposable() { }

    public CompositeDisposable(Disposable... all) { super(all); }

    public CompositeDisposable(Iterable<? extends Disposable> all) { super(all); }
}
