package dev.cellarcliff.rx;

import java.lang.invoke.MethodHandles;
import java.lang.invoke.VarHandle;

/**
 * The trees that a command in one of them may tell something in: a tree alone, or all that subscribe to shares of one another. Here an item that is only
 * heard is told ahead of the engine, without the lock: where nothing else comes meanwhile it is left out of the history, by the law
 * `omitting_changes_nothing_else`.
 *
 * Exclusion. One thread at a time tells an item ahead, or some have calls of the engine under way. The first begins by a change of `state` that
 * fails unless nothing is under way here; so all lanes are empty then. Whoever makes a command writes IN_ENGINE first, under the lock; what is told
 * ahead it gives to the engine before its own, as a call of the thread that tells it, and before that what the same thread tells around it. So the command
 * finds all as if each item had been given as it came, and that thread, which finds its item given, serves what came behind it.
 */
final class Reach {
    private static final long IN_ENGINE = -1;
    private static final VarHandle STATE;

    static {
        try {
            STATE = MethodHandles.lookup().findVarHandle(Reach.class, "state", long.class);
        } catch (ReflectiveOperationException why) {
            throw new ExceptionInInitializerError(why);
        }
    }

    /** IN_ENGINE, or of the last that was told ahead here whether it is under way. */
    private volatile long state;
    // under the lock
    private Ahead last;
    /** How many calls are under way; and how many of them were stopped, so that what they left may be told by any. */
    private int calls, stopped;
    private Reach nextStopped;
    /** Of which it is a part. */
    private Reach joined;

    // without the lock

    /** Begins an item where it was this one's turn last. */
    boolean begin(Ahead it) { return state == it.idle && STATE.compareAndSet(this, it.idle, it.busy); }

    boolean end(Ahead it) { return STATE.compareAndSet(this, it.busy, it.idle); }

    /** Whether another stack's turn may be over, or this be a part of another. */
    boolean mayBegin() { return (state & 1) == 0 || joined != null; }

    // under the lock

    Reach now() {
        Reach at = this;
        while (at.joined != null) { at = at.joined; }
        return at;
    }

    /** Begins an item where nothing is under way. */
    boolean beginFirst(Ahead it) {
        long was = state;
        if ((was & 1) != 0 || !STATE.compareAndSet(this, was, it.busy)) { return false; }
        last = it;
        return true;
    }

    /** Takes back what has begun, unless a command took it. */
    void endLast(Ahead it) {
        if (state == it.busy) { state = it.idle; }
    }

    /** A call comes: the item that is told ahead, if one is. */
    Ahead enter() {
        if (calls++ > 0) { return null; }
        long was = (long) STATE.getAndSet(this, IN_ENGINE);
        return (was & 1) == 0 ? null : last;
    }

    /** The call does not come, since the item could not be given. */
    void putBack(Ahead it) {
        if (--calls == 0) { state = it.busy; }
    }

    void leave() { leave(1); }

    /** The only call tells what has a lane of its own, and nothing stands behind that: until it goes on, it is as if there were none. */
    boolean leaveAlone() {
        if (calls > 1) { return false; }
        leave();
        return true;
    }

    private void leave(int many) {
        if ((calls -= many) == 0) { STATE.setRelease(this, last == null ? 0 : last.idle); }
    }

    /** A call was stopped: a list of such, with this. */
    Reach stop(Reach list) {
        if (stopped++ > 0) { return list; }
        nextStopped = list;
        return this;
    }

    /** What stopped calls left has been told: the rest of the list. */
    Reach rest() {
        Reach rest = nextStopped;
        nextStopped = null;
        now().leave(stopped);
        stopped = 0;
        return rest;
    }

    /** Makes this a part of another. Calls are under way in both. */
    void join(Reach other) {
        other.calls += calls;
        joined = other;
    }
}
