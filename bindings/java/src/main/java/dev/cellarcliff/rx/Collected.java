package dev.cellarcliff.rx;

import java.lang.ref.ReferenceQueue;

/** A reference to what nobody can reach any more. */
interface Collected {
    /** Those that are to be closed yet. */
    ReferenceQueue<Object> QUEUE = new ReferenceQueue<>();

    void close();

    /** Closes what there is. */
    static void closeAll() {
        for (Collected it; (it = (Collected) QUEUE.poll()) != null;) { it.close(); }
    }
}
