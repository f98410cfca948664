package dev.cellarcliff.rx;

import io.reactivex.rxjava3.core.FlowableSubscriber;
import io.reactivex.rxjava3.core.Observer;
import io.reactivex.rxjava3.disposables.Disposable;
import io.reactivex.rxjava3.exceptions.ProtocolViolationException;
import java.lang.invoke.MethodHandles;
import java.lang.invoke.VarHandle;
import org.reactivestreams.Subscription;

/** A node that tells the engine what a source of RxJava's tells. It disposes of the source once it is closed, unless the source has ended. */
final class Leaf extends Node implements Observer<Object>, FlowableSubscriber<Object> {
    private static final VarHandle UPSTREAM;

    static {
        try {
            UPSTREAM = MethodHandles.lookup().findVarHandle(Leaf.class, "upstream", Disposable.class);
        } catch (ReflectiveOperationException why) {
            throw new ExceptionInInitializerError(why);
        }
    }

    private final Engine engine;
    final Through.Chain chain;
    /** Of what it tells nothing comes but that it is heard. */
    private final boolean isHeard;
    /** In which it tells; a hint. */
    Reach reach;
    /** Until it is closed. */
    private volatile Tree tree;
    /** Of one that is not told of its closing: above it. */
    private Merging over;
    private boolean comesAlong;
    private volatile boolean hasEnded;
    private volatile Disposable upstream;
    /** Whoever asks it for items, a few at a time. */
    private final Bounded asker;

    Leaf(Place at) {
        this.engine = at.tree.engine;
        this.tree = at.tree;
        this.chain = at.chain;
        this.isHeard = at.isHeard && engine.leavesOut;
        this.reach = at.tree.ref.reach;
        this.asker = at.asker();
    }

    /** It was opened with the node above. */
    void comesAlong(long slot, long number) {
        has(slot, number);
        comesAlong = true;
    }

    boolean hasComeAlong() { return comesAlong; }

    boolean isOpen() { return tree != null && (over == null || !over.isClosed); }

    @Override void close(Engine by, int what, Object value) { tree = null; }

    @Override void closed() {
        Disposable before = (Disposable) UPSTREAM.getAndSet(this, Disposable.disposed());
        if (before != null && !hasEnded) { before.dispose(); }
    }

    @Override public void onSubscribe(Disposable given) {
        if (UPSTREAM.compareAndSet(this, null, given)) { return; }
        given.dispose();
        if (upstream != Disposable.disposed()) { Errors.hear(new ProtocolViolationException("Disposable already set!")); }
    }

    /** A Flowable is asked for everything, or for what the operator above has room for. */
    @Override public void onSubscribe(Subscription given) {
        onSubscribe(Disposable.fromSubscription(given));
        if (isOpen()) { given.request(asker == null ? Long.MAX_VALUE : asker.asksOf(this, given)); }
    }

    @Override public void onNext(Object item) {
        Tree into = tree;
        if (into == null || isHeard && engine.tellAhead(this, into, item)) { return; }
        if (!engine.next(this, into, carried(item))) { tree = null; }
    }

    private Object carried(Object item) { return chain == null ? item : new Through.Carried(item, chain); }

    /** Is opened with an item that is known at once, tells it, and ends: whether it was open. */
    boolean openItem(Place at, Object item, boolean isLast) {
        over = at.over;
        if (!(isHeard ? engine.openHeard(at, this, item) : engine.openItem(at, this, carried(item)))) { return false; }
        if (isLast) { engine.endLast(this); } else { onComplete(); }
        return true;
    }

    @Override public void onError(Throwable error) {
        if (!end(error)) { Errors.hear(error); }
    }

    @Override public void onComplete() { end(null); }

    /** Whether it was open. */
    private boolean end(Throwable error) {
        Tree into = tree;
        if (into == null) { return false; }
        hasEnded = true;
        return engine.end(this, into, error);
    }
}
