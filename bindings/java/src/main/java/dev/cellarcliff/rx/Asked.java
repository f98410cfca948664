package dev.cellarcliff.rx;

import io.reactivex.rxjava3.core.Flowable;
import io.reactivex.rxjava3.core.FlowableSubscriber;
import io.reactivex.rxjava3.core.Observer;
import io.reactivex.rxjava3.disposables.Disposable;
import io.reactivex.rxjava3.internal.subscriptions.SubscriptionHelper;
import java.util.concurrent.atomic.AtomicLong;
import java.util.concurrent.atomic.AtomicReference;
import org.reactivestreams.Subscriber;
import org.reactivestreams.Subscription;

/** A Flowable's operator: the engine's for a subscriber who asks for everything as he subscribes, and within a tree; RxJava's own for any other. */
final class Asked extends Flowable<Object> implements Operator {
    private final Flowable<Object> theirs;
    private final Operator ours;

    @SuppressWarnings("unchecked")
    Asked(Object theirs, Operator ours) {
        this.theirs = (Flowable<Object>) theirs;
        this.ours = ours;
    }

    @Override public int level() { return ours.level(); }

    @Override public void open(Place at) { ours.open(at); }

    @Override protected void subscribeActual(Subscriber<? super Object> down) {
        if (ours instanceof Through) {
            theirs.subscribe(down);
            return;
        }
        Asking asking = new Asking(down);
        down.onSubscribe(asking);
        if (asking.isAskedForAll()) { Engine.subscribe(ours, asking.told()); } else { theirs.subscribe(asking); }
    }

    /** What a subscriber asks for, from whichever it comes. */
    private static final class Asking implements Subscription, FlowableSubscriber<Object> {
        private final Subscriber<? super Object> down;
        private final AtomicLong asked = new AtomicLong();
        private final AtomicReference<Subscription> up = new AtomicReference<>();

        Asking(Subscriber<? super Object> down) { this.down = down; }

        boolean isAskedForAll() { return asked.get() == Long.MAX_VALUE; }

        @Override public void request(long many) { SubscriptionHelper.deferredRequest(up, asked, many); }

        @Override public void cancel() { SubscriptionHelper.cancel(up); }

        @Override public void onSubscribe(Subscription given) { SubscriptionHelper.deferredSetOnce(up, asked, given); }

        @Override public void onNext(Object item) { down.onNext(item); }

        @Override public void onError(Throwable why) { down.onError(why); }

        @Override public void onComplete() { down.onComplete(); }

        /** As the observer of a subscription of the engine's. */
        Observer<Object> told() {
            return new Observer<Object>() {
                @Override public void onSubscribe(Disposable given) {
                    Asking.this.onSubscribe(new Subscription() {
                        @Override public void request(long many) { }

                        @Override public void cancel() { given.dispose(); }
                    });
                }

                @Override public void onNext(Object item) { down.onNext(item); }

                @Override public void onError(Throwable why) { down.onError(why); }

                @Override public void onComplete() { down.onComplete(); }
            };
        }
    }
}
