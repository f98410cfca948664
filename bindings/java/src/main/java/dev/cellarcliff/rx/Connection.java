package dev.cellarcliff.rx;

/** A connection of a share to its source. */
final class Connection extends Tree {
    final Share share;
    final Node node = new Node() {
        @Override void close(Engine engine, int what, Object value) {
            isOpen = false;
            share.hasEnded = what != Native.DISCONNECT;
            share.error = what == Native.ERROR || what == Native.FAIL || what == Native.ABORT ? (Throwable) value : null;
        }
    };
    /** Of one that was made by hand: it hears of its closing. */
    volatile boolean isOpen;

    @Override Share shares() { return share; }

    Connection(Share share, Engine engine) {
        super(engine, share.reach);
        this.share = share;
    }
}
