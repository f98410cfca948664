package dev.cellarcliff.rx;

import java.util.concurrent.atomic.AtomicLong;

/** A thread's calls of an engine, and what the last of its steps came to, until the next. */
final class Stack {
    private static final AtomicLong WORDS = new AtomicLong();

    final long by = WORDS.incrementAndGet();
    long depth;
    /** The ticket of what it began last. Under the lock of its engine. */
    long begun;
    /** The innermost item that it tells ahead; and which it would be if there were none. */
    Ahead ahead;
    private Ahead first;

    int status, kind;
    boolean isHanded;
    /** The leaf of an item that was known at once, which ends as the projection that is being told does. */
    Leaf ends;
    /** What is handed out is a projection, and its reach is left until that is done. */
    boolean isOut;
    /** The item that came with what was opened is told as well. */
    boolean isBoth;
    /** Of what is handed out: whose tree, what of it, its value, and which thread's command it comes of. */
    Tree tree;
    Thing thing;
    Object value;
    long from;
    /** What the command closed, the first of a chain. */
    Thing closing;

    /** For the next item that is told ahead. */
    Ahead room() {
        Ahead it = ahead == null ? first : ahead.inner;
        return it == null ? makeRoom() : it;
    }

    private Ahead makeRoom() {
        Ahead it = new Ahead(this, ahead);
        if (ahead == null) { first = it; } else { ahead.inner = it; }
        return it;
    }

    /** It is not used again. */
    void forget(Ahead it) {
        if (it.outer == null) { first = null; } else { it.outer.inner = null; }
    }
}
