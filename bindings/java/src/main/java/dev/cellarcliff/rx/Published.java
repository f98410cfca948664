package dev.cellarcliff.rx;

import io.reactivex.rxjava3.core.ObservableSource;
import io.reactivex.rxjava3.core.Observer;
import io.reactivex.rxjava3.disposables.Disposable;
import io.reactivex.rxjava3.functions.Consumer;
import io.reactivex.rxjava3.internal.fuseable.HasUpstreamObservableSource;
import io.reactivex.rxjava3.observables.ConnectableObservable;

/** publish: a share that is connected by hand. */
final class Published extends ConnectableObservable<Object> implements Operator, HasUpstreamObservableSource<Object> {
    final Share share;
    /** It was subscribed to or connected as it stands; or it has a refCount over it that connects its source by itself. */
    private boolean isUsed, isCounted;

    @SuppressWarnings("unchecked")
    Published(ObservableSource<?> source) { share = new Share((ObservableSource<Object>) source, Native.PUBLISHED); }

    private synchronized void use() { isUsed = true; }

    /** Whether a refCount over this may go by itself: nothing else reads this. */
    synchronized boolean isCountedFirst() {
        boolean isFirst = !isUsed && !isCounted;
        isCounted = true;
        return isFirst;
    }

    @Override public ObservableSource<Object> source() { return share.source; }

    @Override public Engine engine() { return share.engine; }

    @Override public int level() { return 1 + share.level; }

    @Override protected void subscribeActual(Observer<? super Object> observer) { Engine.subscribe(this, observer); }

    @Override public void open(Place at) {
        use();
        RefCount.join(this, share, at);
    }

    @Override public void connect(Consumer<? super Disposable> consumer) {
        use();
        Connection made, connection;
        ByHand byHand = new ByHand();
        Place source;
        do {
            Engine engine = share.engine;
            Collected.closeAll();
            made = new Connection(share, engine);
            source = Place.source(made);
            connection = engine.connect(share, made);
        } while (connection == null);
        byHand.connection = connection;
        try {
            consumer.accept(byHand);
        } catch (Throwable why) {
            throw Errors.thrown(why);
        }
        if (connection == made && made.isOpen) { source.open(share.source); }
    }

    @Override public void reset() { share.engine.reset(share); }

    /** What disposes of a connection. */
    private static final class ByHand implements Disposable {
        private Connection connection;

        @Override public void dispose() { connection.engine.disconnect(connection); }

        @Override public boolean isDisposed() { return !connection.isOpen; }
    }
}
