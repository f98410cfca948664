package dev.cellarcliff.rx;

/** A resource that a node holds. */
abstract class Tag extends Thing {
    /** Whether it is released before the end is told. */
    final boolean isEager;
    /** Another that is released behind it. */
    Tag next;

    Tag(boolean isEager) { this.isEager = isEager; }

    abstract void release() throws Throwable;
}
