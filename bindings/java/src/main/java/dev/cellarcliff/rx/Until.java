package dev.cellarcliff.rx;

/** takeUntil: its source until the notifier tells something. */
final class Until extends Operator.Plain {
    private final Object source, notifier;

    Until(Object source, Object notifier) {
        this.source = source;
        this.notifier = notifier;
    }

    @Override public int level() { return Math.max(Operator.level(source), Operator.level(notifier)); }

    @Override public void open(Place at) {
        Node node = new Node();
        Place first = at.notifier(node), second = at.below(node);
        if (!at.tree.engine.open(at, Native.OPEN | Native.UNTIL << 16, node, false, null, null)) { return; }
        first.open(notifier);
        second.open(source);
    }
}
