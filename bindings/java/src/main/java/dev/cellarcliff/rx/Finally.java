package dev.cellarcliff.rx;

import io.reactivex.rxjava3.functions.Action;

/** An action behind the end, or behind the disposal: a resource that is there already. */
final class Finally extends Operator.Plain {
    private final Object source;
    private final Action action;

    Finally(Object source, Action action) {
        this.source = source;
        this.action = action;
    }

    @Override public int level() { return Operator.level(source); }

    @Override public void isNotOpened() {
        try {
            action.run();
        } catch (Throwable why) {
            Errors.hear(why);
        }
    }

    @Override public void open(Place at) {
        Node node = new Node();
        Tag held = new Tag(false) {
            @Override void release() throws Throwable { action.run(); }
        };
        Place below = at.below(node);
        Leaf leaf = null;
        boolean isHeld = false;
        try {
            leaf = below.leafOf(source);
            isHeld = at.tree.engine.open(at, Native.USING, node, false, held, leaf);
        } finally {
            if (!isHeld) { isNotOpened(); }
        }
        if (isHeld) { below.open(source, leaf); }
    }
}
