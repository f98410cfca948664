package dev.cellarcliff.rx;

import io.reactivex.rxjava3.core.Observable;
import io.reactivex.rxjava3.core.Observer;
import io.reactivex.rxjava3.disposables.Disposable;
import io.reactivex.rxjava3.functions.Consumer;
import io.reactivex.rxjava3.internal.util.ExceptionHelper;

/** Observers that raise what they raise: RxJava's own would tell it themselves. */
final class Io {
    private Io() { }

    /** Subscribes, and is its subscription. */
    static final class DisposableHolder<T> implements Observer<T>, Disposable {
        private final Consumer<T> next;
        private Disposable given;

        DisposableHolder(Observable<T> source, Consumer<T> next) {
            this.next = next;
            source.subscribe(this);
        }

        @Override public void onSubscribe(Disposable it) { given = it; }

        @Override public void onNext(T v) {
            try {
                next.accept(v);
            } catch (Throwable why) {
                throw ExceptionHelper.wrapOrThrow(why);
            }
        }

        @Override public void onError(Throwable why) { }

        @Override public void onComplete() { }

        @Override public void dispose() { given.dispose(); }

        @Override public boolean isDisposed() { return given.isDisposed(); }
    }
}
