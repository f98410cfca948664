package dev.cellarcliff.rx;

import io.reactivex.rxjava3.core.ObservableSource;
import java.util.concurrent.atomic.AtomicLong;

/** What the subscribers of a share have together. But for the first fields all is under the lock of its engine. */
final class Share {
    private static final AtomicLong WORDS = new AtomicLong();

    final ObservableSource<Object> source;
    final int kind, level;
    final long word = WORDS.incrementAndGet();
    volatile Engine engine = Engine.current();
    /** Of it and all who subscribe to it. */
    Reach reach = new Reach();
    long hub = Native.UNKNOWN_HUB;
    /** How many further engines it has tried. */
    int tried;
    /** In which round its connection and subscribers were looked for last. */
    private long found;
    /** The last connection. */
    Connection connection;
    /** Whether a connection that was made by hand ended, and its error, until that is forgotten. */
    boolean hasEnded;
    Throwable error;
    /** Those whose lane others may have come first. */
    private Subscriber first, last;
    /** How many have nothing but this share, and how many are others; and the first in their order, if there are no others and they were asked for. */
    private int alone, others;
    volatile Root[] heard;

    Share(ObservableSource<Object> source, int kind) {
        this.source = source;
        this.kind = kind;
        this.level = Operator.level(source);
    }

    void forget() {
        hasEnded = false;
        error = null;
    }

    /** Its connection and subscribers are there again, if they were collected: the last of a chain, to which they come. */
    Tree find(Engine by, long round, Tree last) {
        if (found == round) { return last; }
        found = round;
        Tree tail = connection == null ? last : found(by, connection, last);
        for (Subscriber each = first; each != null; each = each.after) { tail = found(by, each.tree, tail); }
        return tail;
    }

    private static Tree found(Engine by, Tree tree, Tree last) {
        if (!by.isFound(tree)) { return last; }
        last.foundNext = tree;
        return tree;
    }

    /** A tree that has it, if there is one. */
    Tree anyTree() { return first == null ? connection : first.tree; }

    boolean hasSubscriber() { return first != null; }

    /** A subscription of which the lane can be another's too: one that has nothing but this share. */
    Subscriber beside() { return first != null && first.isAlone ? first : null; }

    private void count(Subscriber one, int change) {
        if (heard != null) { heard = null; }
        if (one.isAlone) { alone += change; } else { others += change; }
    }

    /** Looks for those who hear an item of its source, where nothing else comes of that: whether that is so. In other lanes their order is the engine's. */
    boolean makeHeard() {
        if (heard != null) { return true; }
        if (others > 0) { return false; }
        Root[] all = new Root[alone];
        int many = 0;
        for (Subscriber each = last; each != null; each = each.before) { all[many++] = (Root) each.tree; }
        heard = all;
        return true;
    }

    /** Tells those an item that is told ahead: whether that may be. */
    boolean hear(Engine by, Ahead it, Object item) {
        Root[] all = heard;
        if (all == null) { all = by.heard(this, it); }
        if (all == null) { return false; }
        Throwable raised = null;
        for (Root each : all) {
            try {
                each.next(item, null);
            } catch (Throwable why) {
                raised = Errors.raise(raised, why);
            }
        }
        if (raised != null) { throw Errors.thrown(raised); }
        return true;
    }

    /** A node that subscribes to it. */
    static final class Subscriber extends Node {
        final Share share;
        final boolean isAlone;
        private final Tree tree;
        private Subscriber before, after;

        Subscriber(Share share, Place at) {
            this.share = share;
            this.isAlone = at.isRoot();
            this.tree = at.tree;
        }

        void join() {
            share.count(this, 1);
            if (isAlone) {
                after = share.first;
                if (after == null) { share.last = this; } else { after.before = this; }
                share.first = this;
            } else {
                before = share.last;
                if (before == null) { share.first = this; } else { before.after = this; }
                share.last = this;
            }
        }

        @Override void close(Engine engine, int what, Object value) {
            share.count(this, -1);
            if (before == null) { share.first = after; } else { before.after = after; }
            if (after == null) { share.last = before; } else { after.before = before; }
            before = after = null;
            engine.pin(tree);
            if (share.connection != null) { engine.pin(share.connection); }
        }
    }
}
