package dev.cellarcliff.rx;

import io.reactivex.rxjava3.disposables.Disposable;

/** As RxJava's class, over the engine: one at a time is in it, and is disposed of as another takes its place, or with it. */
public class SerialDisposable implements Disposable {
    private final Held held = new Held(true);
    private Held.Member latest;

    public SerialDisposable() { }

    public SerialDisposable(Disposable first) { set(first); }

    public boolean set(Disposable next) { return exchange(next, false); }

    public boolean replace(Disposable next) { return exchange(next, true); }

    private boolean exchange(Disposable next, boolean isKept) {
        Held.Member member;
        synchronized (this) {
            if (isKept && latest != null) { latest.keep(); }
            member = held.hold(next == null ? Disposable.empty() : next);
            if (member != null) { latest = next == null ? null : member; }
        }
        if (member == null && next != null) { next.dispose(); }
        held.disposeOfRest();
        return member != null;
    }

    public synchronized Disposable get() { return held.isOver() ? Disposable.disposed() : latest == null ? null : latest.one; }

    @Override public void dispose() {
        held.end();
        held.disposeOfRest();
    }

    @Override public boolean isDisposed() { return held.isOver(); }
}
