package dev.cellarcliff.rx;

import io.reactivex.rxjava3.core.Observable;
import io.reactivex.rxjava3.core.Observer;

/** refCount over a publish that nothing else reads, and share: connected while it has subscribers. */
final class RefCount extends Operator.Plain {
    private final Published published;
    private final Observable<?> theirs;
    final Share share;
    private int mode;
    private static final int OURS = 1, THEIRS = 2;

    /** `theirs` is RxJava's own, which stands for this where the publish is read by others. */
    RefCount(Published published, Observable<?> theirs) {
        this.published = published;
        this.theirs = theirs;
        this.share = new Share(published.share.source, Native.SHARED);
    }

    private synchronized boolean isOurs() {
        if (mode == 0) { mode = published.isCountedFirst() ? OURS : THEIRS; }
        return mode == OURS;
    }

    @Override public Engine engine() { return share.engine; }

    @Override public int level() { return 1 + share.level; }

    @SuppressWarnings("unchecked")
    @Override protected void subscribeActual(Observer<? super Object> observer) {
        if (isOurs()) { super.subscribeActual(observer); } else { ((Observable<Object>) theirs).subscribe(observer); }
    }

    @Override public void open(Place at) {
        if (isOurs()) { join(this, share, at); } else { Operator.open(theirs, at); }
    }

    /** Opens a subscriber of a share, or a leaf that subscribes apart where the share cannot be had at this place. */
    static void join(Observable<?> source, Share share, Place at) {
        int status;
        do {
            if (share.engine != at.tree.engine || at.chain != null) {  // functions go with a leaf's items
                Operator.openLeaf(source, at);
                return;
            }
            status = share.engine.subscribe(at, share);
        } while (status == Native.NO_HUB);
        if (status == Native.HUB_ORDER) {
            Operator.openLeaf(source, at);
        } else if (status == Engine.ENDED) {
            Operator.openEnd(at, share);
        }
    }
}
