package dev.cellarcliff.rx;

import io.reactivex.rxjava3.functions.Function;
import io.reactivex.rxjava3.functions.Supplier;
import java.util.ArrayDeque;
import org.reactivestreams.Subscription;

/** The node of a flatMap that has so many inner sources open at a time, or of a concatMap. What waits is owed to the engine, which so keeps the node open. */
final class Bounded extends Merging {
    private final int most;
    /** How many items its source is asked for at first, a Flowable; 0 of any other. */
    private final int asks;
    private volatile Leaf source;
    private volatile Subscription asked;
    /** A concatMap maps an item when its turn has come, a flatMap as it comes. */
    private final boolean isInTurn;
    /** By which the engine is asked to go on. */
    long word;
    /** Of the list of those that are to go on, of which the engine was not told yet. */
    boolean isToGoOn;
    Bounded toGoOnNext;
    // under the lock: how many are open, or being opened; and what waits
    private int open;
    private boolean isOver;
    /** How many it has mapped since it asked last. */
    private int taken;
    private final ArrayDeque<Object> waiting = new ArrayDeque<>();

    Bounded(Place at, Function<Object, ?> mapper, int most, int asks, boolean isInTurn) {
        super(at, mapper, false);
        this.most = most;
        this.asks = asks;
        this.isInTurn = isInTurn;
    }

    @Override boolean letsOthersIn() { return false; }

    @Override void opened(long word) { this.word = word; }

    @Override void over() {
        isOver = true;
        waiting.clear();
    }

    boolean asks() { return asks > 0; }

    /** What its source is asked for at first; one item more for each that is done. */
    long asksOf(Leaf source, Subscription asked) {
        this.source = source;
        this.asked = asked;
        return asks;
    }

    private void askForMore(int many) {
        if (asked != null && source.isOpen()) { asked.request(many); }
    }

    /** An item is done with: a flatMap asks for another. */
    private void done() {
        if (!isInTurn) { askForMore(1); }
    }

    /** An item is mapped: a concatMap asks for more behind each three quarters of what it asked for at first, as RxJava's. */
    private void taken() {
        if (!isInTurn || ++taken < asks - (asks >> 2)) { return; }
        askForMore(taken);
        taken = 0;
    }

    @Override void declined() {
        taken();
        done();
    }

    /** An inner source is closed: whether another can be opened. The lock is held. */
    boolean leave() {
        open--;
        return !isOver && !waiting.isEmpty();
    }

    /** The next that waits, if there is one and its turn has come. The lock is held. */
    Object enter() {
        if (isOver || open >= most || waiting.isEmpty()) { return null; }
        open++;
        return waiting.poll();
    }

    /** It waits for its turn. The lock is held. */
    void enqueue(Object it) {
        if (!isOver) { waiting.add(it); }
    }

    @Override void start(Object item) throws Throwable {
        tree.engine.enqueue(this, isInTurn ? item : mapped(item));
        goOn();
    }

    /** Opens what waits, as long as there is room. */
    void goOn() {
        try {
            for (Object it; (it = tree.engine.enter(this)) != null;) {
                Object source = isInTurn ? mapped(it) : it;
                taken();
                Place at = Place.inner(this);
                boolean isOpen;
                if (source instanceof Supplier) {
                    isOpen = Operator.openItem((Supplier<?>) source, at, false);
                    tree.engine.leave(this);
                    done();
                } else {
                    isOpen = openInner(source, at);
                }
                if (!isOpen) { tree.engine.over(this); }
            }
        } catch (Throwable why) {
            tree.engine.over(this);
            fail(why);
        }
    }

    private boolean openInner(Object source, Place at) {
        Node node = new Node() {
            @Override void close(Engine engine, int what, Object value) { engine.left(Bounded.this); }

            @Override void closed() { done(); }
        };
        Place below = at.below(node);
        boolean isOpen = tree.engine.open(at, Native.OPEN | Native.PASS << 16 | Native.WISHES << 24, node, true, null, null);
        if (isOpen) { below.open(source); }
        return isOpen;
    }
}
