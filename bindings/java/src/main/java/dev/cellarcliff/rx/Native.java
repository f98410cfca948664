package dev.cellarcliff.rx;

import java.nio.ByteBuffer;
import java.nio.ByteOrder;

/** The calls of the library, by JNI, and its numbers. One call at a time on a desk: see src/main/c/crossing.c for what each answers. */
final class Native {
    // commands, places and kinds of nodes, flags: a command's head is what | place << 8 | kind << 16 | flags << 24 | level << 32
    static final int OPEN = 0, USING = 1, NEXT = 3, COMPLETE = 4, ERROR = 5, FAIL = 6, DECLINE = 7, DISPOSE = 8, CONNECT = 9, DISCONNECT = 10, PUT = 11, ABORT = 13;
    static final int ROOT = 0, SOURCE = 1, INNER = 2, NOTIFIER = 3;
    static final int LEAF = 0, PASS = 1, FLAT = 2, SWITCH = 3, UNTIL = 4, SHARED = 5, PUBLISHED = 6;
    static final int WISHES = 1, LANE_OF_NODE = 2, OF_PROJECTIONS = 4;
    static final int E_NEXT = 0, E_PROJECT = 1, E_COMPLETED = 2, E_FAILED = 3, E_GONE = 4, E_RELEASE = 5, E_PUT = 6, E_MERGED = 7;
    static final int DONE = 0, NO_MEMORY = 4, FULL = 16, GONE = 17, NOTHING_OWED = 20, NO_HUB = 22, HUB_ORDER = 23, TOO_MANY = 29,
        NO_STACK = 255;
    static final long UNKNOWN_HUB = -1;
    /** Above a depth: others are let in as what is projected is answered; an item comes with what is opened, or a leaf below it; the call further out goes on. */
    static final long LETS_IN = 1L << 61, WITH_ITEM = 1L << 60, WITH_LEAF = 1L << 59, GOES_ON = 1L << 58;

    // bits of what a step answers, and places in the buffer
    static final int HANDED = 1 << 8, OWN = 1 << 9, CARRIES = 1 << 10, MORE = 1 << 11, BOTH = 1 << 12, KIND = 16, NOTED = 24;
    static final int NODE = 0, OTHER = 16, IS_CONNECTED = 32, HUB = 40, COPIES = 48, CLOSED = 56, CLOSINGS = 64, ROOM = 8, TICKET = 144, USER = 160, VALUE = 168,
        BY = 176, TOTALS = 192, WORDS = 256, NOTED_WORDS = 768, NOTED_KINDS = 896, BEGUN = 904;

    static {
        Library.load();
        boolean isOurs = false;
        try {
            isOurs = fits();
        } catch (UnsatisfiedLinkError why) {
            // it has no such call
        }
        if (!isOurs) { throw new UnsatisfiedLinkError("cellarcliff: the native library is of another version than this jar, or of something else"); }
    }

    private Native() { }

    static ByteBuffer memory(long desk) { return buffer(desk).order(ByteOrder.nativeOrder()); }

    private static native boolean fits();
    /** A desk whose history has so many events, or as many as it chooses for 0; or 0 where memory was refused. */
    static native long open(int events);
    /** Gives back all that a desk has. No call on it comes behind this. */
    static native void drop(long desk);
    private static native ByteBuffer buffer(long desk);
    static native long step(long desk, long by, long depth, long begun, long head, long hub, long slot, long number, long user, long value, long around);
    static native long next(long desk, long by, long depth, long begun, long around);
    /** Gives an item that is being told: the ticket of the last that is told of it; 0 where it was refused or nobody hears it, less where there is no stack. */
    static native long give(long desk, long by, long depth, long begun, long slot, long number);
    static native void pass(long desk, long by, long depth, long begun, boolean now);
    static native void stop(long desk, long by, long depth, long begun);
    static native long closings(long desk, long from);
    static native void totals(long desk);
    /** The history; null where it is not whole. */
    static native byte[] dump(long desk);
}
