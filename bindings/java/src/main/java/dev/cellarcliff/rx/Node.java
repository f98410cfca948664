package dev.cellarcliff.rx;

/** A node, by its key. */
class Node extends Thing {
    long slot, number;

    void has(long slot, long number) {
        this.slot = slot;
        this.number = number;
    }

    /** It is open, by this word. The lock is held. */
    void opened(long word) { }
}
