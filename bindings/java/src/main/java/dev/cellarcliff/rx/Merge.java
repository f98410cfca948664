package dev.cellarcliff.rx;

import static dev.cellarcliff.rx.Native.FLAT;
import static dev.cellarcliff.rx.Native.OPEN;
import static dev.cellarcliff.rx.Native.SWITCH;
import static dev.cellarcliff.rx.Native.WISHES;

import io.reactivex.rxjava3.functions.Function;

/** flatMap, switchMap and concatMap. */
final class Merge extends Operator.Plain {
    enum Manner { FLAT, SWITCH, CONCAT }

    /** The level of what has sources that cannot be seen yet. */
    static final int UNSEEN = 3;

    private final Object source;
    private final Function<Object, ?> mapper;
    private final Manner manner;
    private final int most, asks;

    /** At most so many inner sources at a time, and if it asks its source for so many items at first, that is a Flowable. */
    Merge(Object source, Function<Object, ?> mapper, Manner manner, int most, int asks) {
        this.source = source;
        this.mapper = mapper;
        this.manner = manner;
        this.most = most;
        this.asks = asks;
    }

    Merge(Object source, Function<Object, ?> mapper, Manner manner, int most) { this(source, mapper, manner, most, 0); }

    Merge(Object source, Function<Object, ?> mapper, Manner manner) { this(source, mapper, manner, manner == Manner.CONCAT ? 1 : Integer.MAX_VALUE); }

    @Override public int level() { return Math.max(UNSEEN, Operator.level(source)); }

    @Override public void open(Place at) {
        boolean isSwitch = manner == Manner.SWITCH;
        Merging merging = most == Integer.MAX_VALUE ? new Merging(at, mapper, isSwitch) : new Bounded(at, mapper, most, asks, manner == Manner.CONCAT);
        Place below = at.projected(merging);
        if (!at.tree.engine.open(at, OPEN | (isSwitch ? SWITCH : FLAT) << 16 | WISHES << 24, merging, true, null, null)) { return; }
        if (asks > 0) { Operator.openLeaf(source, below); } else { below.open(source); }  // what is asked for a few items is RxJava's
    }
}
