package io.reactivex.rxjava3.disposables;

/** In the place of RxJava's class, the engine's. */
public final class SerialDisposable extends dev.cellarcliff.rx.SerialDisposable {
    public SerialDisposable() { }

    public SerialDisposable(Disposable first) { super(first); }
}
