package dev.cellarcliff.rx;

import java.util.concurrent.atomic.AtomicLong;

/** An item that a stack tells ahead of the engine: see {@link Reach}. It is used again for the next one that is told within as many others. */
final class Ahead {
    private static final AtomicLong MADE = new AtomicLong();

    final Stack stack;
    /** Within which it is told; and which is told within this. */
    final Ahead outer;
    Ahead inner;
    /** The states of a reach in which this may begin, and is under way. */
    final long idle = MADE.incrementAndGet() << 1, busy = idle | 1;
    // written before it begins
    Reach reach;
    long depth, slot, number;
    /** Whose subscribers hear it, if a share's do. */
    Share share;
    // under the lock
    /** The engine has it, and this is a call of its. */
    boolean isGiven;
    /** The share's subscribers as it was given. */
    Root[] heard;
    /** Of those whose call could not be served, for want of stack. */
    Ahead nextUnserved;

    Ahead(Stack stack, Ahead outer) {
        this.stack = stack;
        this.outer = outer;
    }
}
