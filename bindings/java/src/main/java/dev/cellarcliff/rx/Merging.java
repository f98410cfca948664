package dev.cellarcliff.rx;

import io.reactivex.rxjava3.functions.Function;
import java.util.Objects;

/** The node of a flatMap or a switchMap. */
class Merging extends Node {
    final Tree tree;
    final boolean isSwitch;
    /** What items of the inner sources go through. */
    final Through.Chain chain;
    final boolean isShared, isHeard;
    private final Function<Object, ?> mapper;
    /** Read within an item that is told ahead, or under the lock. */
    boolean isClosed;

    Merging(Place at, Function<Object, ?> mapper, boolean isSwitch) {
        this.tree = at.tree;
        this.mapper = mapper;
        this.isSwitch = isSwitch;
        this.chain = at.chain;
        this.isShared = at.isShared;
        this.isHeard = at.isHeard;
    }

    /** Whether items that come as an inner source is opened are projected at once. */
    boolean letsOthersIn() { return true; }

    /** Of its closing, and that nothing more is projected. */
    @Override int roles() { return 2; }

    @Override void close(Engine engine, int what, Object value) { isClosed = true; }

    /** Nothing more is projected. The lock is held. */
    void over() { }

    /** Opens what the item is mapped to. */
    final void project(Object carried) {
        try {
            Object item = Through.through(carried);
            if (item == null) {
                tree.engine.decline(this);
                declined();
            } else {
                start(item);
            }
        } catch (Throwable why) {
            fail(why);
        }
    }

    /** An item did not get as far as to be mapped. */
    void declined() { }

    void start(Object item) throws Throwable { Operator.open(mapped(item), Place.inner(this)); }

    final Object mapped(Object item) throws Throwable { return Objects.requireNonNull(mapper.apply(item), "The mapper returned a null ObservableSource"); }

    /** What an item is mapped to cannot be had. */
    final void fail(Throwable why) {
        boolean isTold = tree.engine.fail(this, why);
        if (Errors.isFatal(why) || !isTold) { Errors.hear(why); }
    }
}
