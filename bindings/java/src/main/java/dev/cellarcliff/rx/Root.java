package dev.cellarcliff.rx;

import io.reactivex.rxjava3.core.Observer;
import io.reactivex.rxjava3.disposables.Disposable;

/** A subscription. */
final class Root extends Tree implements Disposable {
    private Observer<Object> down;
    /** The engine has opened it; it has told the last of it. Under the lock. */
    boolean isOpen, isOver;
    /** Nothing more is told. */
    private volatile boolean isStopped;

    Root(Engine engine, Observer<Object> down) {
        super(engine, new Reach());
        this.down = down;
    }

    /** An item of the engine's. */
    void hear(Object it) {
        if (it instanceof Through.Carried) { next(((Through.Carried) it).item, ((Through.Carried) it).chain); } else { next(it, null); }
    }

    /** An item before its functions. */
    void next(Object it, Through.Chain chain) {
        Observer<Object> told = down;
        if (isStopped || told == null) { return; }
        Object item = it;
        if (chain != null) {
            try {
                item = Through.through(it, chain);
            } catch (Throwable why) {
                fail(why);
                return;
            }
            if (item == null || isStopped) { return; }
        }
        try {
            told.onNext(item);
        } catch (Throwable why) {
            dispose();
            throw why;
        }
    }

    /** A function on the way failed: RxJava's disposes of its source, and tells the error. */
    private void fail(Throwable why) {
        engine.dispose(this);
        tellEnd(why);
        if (Errors.isFatal(why)) { throw Errors.thrown(why); }
    }

    /** Tells the end, behind what is released before it. */
    void end(Stack stack, Throwable error) {
        Throwable raised = null;
        if (eager > 0 || late > 1) {
            try {
                engine.settle(stack, this);
            } catch (Throwable why) {
                raised = why;
            }
            if (releases.failed != null) { error = error == null ? releases.failed : Errors.both(error, releases.failed); }
        }
        try {
            tellEnd(error);
        } catch (Throwable why) {
            raised = Errors.raise(raised, why);
        }
        if (releases != null) { raised = releases.releaseLate(raised); }
        if (raised != null) { throw Errors.thrown(raised); }
    }

    private void tellEnd(Throwable error) {
        Observer<Object> told = down;
        down = null;
        if (isStopped) {
            if (error != null) { Errors.hear(error); }
            return;
        }
        isStopped = true;
        if (error == null) { told.onComplete(); } else { told.onError(error); }
    }

    /** It was closed without an end. */
    void gone() {
        isStopped = true;
        down = null;
    }

    @Override public void dispose() {
        isStopped = true;
        engine.dispose(this);
    }

    @Override public boolean isDisposed() { return isStopped; }
}
