package dev.cellarcliff.rx;

import io.reactivex.rxjava3.functions.Function;

/** A place at which a node is opened: below a node, whose key it has once that is open, or a root. */
final class Place {
    final Tree tree;
    final int place;
    /** The operator that was handed the item which is projected here, if it is. */
    final Merging over;
    /** What items go through on their way up from here, if anything; and whether they go to the subscribers of a share. */
    final Through.Chain chain;
    final boolean isShared;
    /** Of an item from here nothing comes but that it is heard. */
    final boolean isHeard;
    private final Node above;

    private Place(Tree tree, int place, Node above, Merging over, Through.Chain chain, boolean isShared, boolean isHeard) {
        this.tree = tree;
        this.place = place;
        this.above = above;
        this.over = over;
        this.chain = chain;
        this.isShared = isShared;
        this.isHeard = isHeard;
    }

    static Place root(Root root) { return new Place(root, Native.ROOT, null, null, null, false, true); }

    static Place inner(Merging over) { return new Place(over.tree, Native.INNER, over, over, over.chain, over.isShared, over.isHeard); }

    static Place source(Connection connection) { return new Place(connection, Native.SOURCE, connection.node, null, null, true, true); }

    /** Below a node that hands items on as they are. */
    Place below(Node node) { return new Place(tree, Native.SOURCE, node, null, chain, isShared, isHeard); }

    Place notifier(Node node) { return new Place(tree, Native.NOTIFIER, node, null, null, false, false); }

    Place projected(Merging merging) { return new Place(tree, Native.SOURCE, merging, null, null, false, false); }

    Place through(Function<Object, ?> function) { return new Place(tree, place, above, over, new Through.Chain(function, chain), false, isHeard); }

    /** What asks for items here, a few at a time, if something does. */
    Bounded asker() { return place == Native.SOURCE && above instanceof Bounded && ((Bounded) above).asks() ? (Bounded) above : null; }

    long slot() { return above == null ? 0 : above.slot; }

    long number() { return above == null ? 0 : above.number; }

    /** What stands above the depth of a call that opens something here: whether others are let in then. */
    long letsOthersIn() { return over != null && over.letsOthersIn() ? Native.LETS_IN : 0; }

    boolean isRoot() { return place == Native.ROOT; }

    /** What is opened here takes the place of another. */
    boolean isExchange() { return over != null && over.isSwitch; }

    /** A leaf that may be opened with the node above, if what stands below that is one. */
    Leaf leafOf(Object source) { return source instanceof Operator ? null : new Leaf(this); }

    void open(Object source) { open(source, null); }

    /** Opens what stands below a node, unless its leaf is open already. Where that raises something the node ends with it. */
    void open(Object source, Leaf leaf) {
        try {
            if (leaf != null && leaf.hasComeAlong()) { Operator.subscribe(source, leaf); } else { Operator.open(source, this); }
        } catch (Throwable why) {
            tree.engine.abort(above, tree, why);
            throw why;
        }
    }
}
