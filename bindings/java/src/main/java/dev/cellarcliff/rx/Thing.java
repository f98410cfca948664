package dev.cellarcliff.rx;

/** What has a word in its tree until the engine has told the last of it: a node, or a resource. */
abstract class Thing {
    /** What the same command closed behind this. */
    Thing closedNext;

    /** How often it is told something for the last time, but for a root's. */
    int roles() { return 1; }

    /** The engine has closed it. The lock is held. */
    void close(Engine engine, int what, Object value) { }

    /** It has been closed. Outside the lock, before anything that stands behind it is told. */
    void closed() { }
}
