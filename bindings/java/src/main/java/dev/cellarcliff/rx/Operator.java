package dev.cellarcliff.rx;

import static dev.cellarcliff.rx.Native.LEAF;
import static dev.cellarcliff.rx.Native.OPEN;
import static dev.cellarcliff.rx.Native.WISHES;

import io.reactivex.rxjava3.core.Observable;
import io.reactivex.rxjava3.core.ObservableSource;
import io.reactivex.rxjava3.core.Observer;
import io.reactivex.rxjava3.functions.Supplier;
import org.reactivestreams.Publisher;

/** An operator whose nodes are the engine's. What it reads that is none becomes a leaf. */
interface Operator {
    /** Opens its nodes at a place. It raises nothing but what is fatal. */
    void open(Place at);

    /** The engine in which it is opened. */
    default Engine engine() { return Engine.current(); }

    /** The observer disposed of its subscription as it was handed it. */
    default void isNotOpened() { }

    /** How many shares stand one below another here, as far as can be seen. */
    default int level() { return 0; }

    static int level(Object source) { return source instanceof Operator ? ((Operator) source).level() : 0; }

    /** An operator that is an observable and nothing more. */
    abstract class Plain extends Observable<Object> implements Operator {
        @Override protected void subscribeActual(Observer<? super Object> observer) { Engine.subscribe(this, observer); }
    }

    static void open(Object source, Place at) {
        if (source instanceof Operator) {
            ((Operator) source).open(at);
        } else if (source instanceof Supplier && at.over != null && !at.over.isSwitch) {
            openItem((Supplier<?>) source, at, true);
        } else {
            openLeaf(source, at);
        }
    }

    static void openLeaf(Object source, Place at) {
        Leaf leaf = new Leaf(at);
        if (at.tree.engine.open(at, OPEN | LEAF << 16 | WISHES << 24, leaf, true, null, null)) { subscribe(source, leaf); }
    }

    @SuppressWarnings("unchecked")
    static void subscribe(Object source, Leaf leaf) {
        if (!leaf.isOpen()) { return; }
        try {
            if (source instanceof Publisher) { ((Publisher<Object>) source).subscribe(leaf); } else { ((ObservableSource<Object>) source).subscribe(leaf); }
        } catch (Throwable why) {
            leaf.onError(why);
            if (Errors.isFatal(why)) { throw why; }
        }
    }

    /** One item, or none, that is known at once: whether its operator is open yet. If it is the last of a projection it ends with that. */
    static boolean openItem(Supplier<?> source, Place at, boolean isLast) {
        Engine engine = at.tree.engine;
        Object item;
        try {
            item = source.get();
        } catch (Throwable why) {
            at.over.fail(why);
            return false;
        }
        if (item == null) { return engine.decline(at.over); }
        return new Leaf(at).openItem(at, item, isLast);
    }

    /** How a connection ended, for who comes behind its end. */
    static void openEnd(Place at, Share share) {
        Throwable error = share.error;
        if (error != null) {
            fail(at, error);
        } else {
            Leaf leaf = new Leaf(at);
            if (at.tree.engine.open(at, OPEN | LEAF << 16, leaf, false, null, null)) { leaf.onComplete(); }
        }
    }

    /** At this place stands what fails at once. */
    static void fail(Place at, Throwable why) {
        Leaf leaf = new Leaf(at);
        if (at.tree.engine.open(at, OPEN | LEAF << 16, leaf, false, null, null)) { leaf.onError(why); } else { Errors.hear(why); }
        if (Errors.isFatal(why)) { throw Errors.thrown(why); }
    }
}
