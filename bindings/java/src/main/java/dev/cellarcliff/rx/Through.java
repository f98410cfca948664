package dev.cellarcliff.rx;

import io.reactivex.rxjava3.core.Observable;
import io.reactivex.rxjava3.core.Observer;
import io.reactivex.rxjava3.functions.Function;
import io.reactivex.rxjava3.functions.Predicate;
import java.util.Objects;

/**
 * A map or a filter over the engine's operators. Below another of them it is no node: an item carries the functions on its way to whoever is
 * handed it, and goes through them there. Otherwise it is RxJava's own.
 */
final class Through extends Operator.Plain {
    private final Object theirs, source;
    private final Function<Object, ?> function;

    Through(Object theirs, Object source, Function<Object, ?> function) {
        this.theirs = theirs;
        this.source = source;
        this.function = function;
    }

    /** A filter's: null for what does not go on. */
    static Function<Object, ?> filtering(Predicate<Object> predicate) { return item -> predicate.test(item) ? item : null; }

    /** A map's. */
    static Function<Object, ?> mapping(Function<Object, ?> mapper) {
        return item -> Objects.requireNonNull(mapper.apply(item), "The mapper function returned a null value.");
    }

    @Override public int level() { return Operator.level(source); }

    @SuppressWarnings("unchecked")
    @Override protected void subscribeActual(Observer<? super Object> observer) { ((Observable<Object>) theirs).subscribe(observer); }

    @Override public void open(Place at) {
        if (at.place == Native.NOTIFIER || at.isShared) {  // an item fires there before anybody is handed it; or many are handed it
            Operator.openLeaf(theirs, at);
        } else {
            Operator.open(source, at.through(function));
        }
    }

    /** The functions from a place to whoever is handed an item of it. */
    static final class Chain {
        private final Function<Object, ?> first;
        private final Chain rest;

        Chain(Function<Object, ?> first, Chain rest) {
            this.first = first;
            this.rest = rest;
        }
    }

    /** An item before its functions. */
    static final class Carried {
        final Object item;
        final Chain chain;

        Carried(Object item, Chain chain) {
            this.item = item;
            this.chain = chain;
        }
    }

    /** An item behind its functions; null if it does not go on. */
    static Object through(Object item) throws Throwable {
        return item instanceof Carried ? through(((Carried) item).item, ((Carried) item).chain) : item;
    }

    static Object through(Object item, Chain chain) throws Throwable {
        Object it = item;
        for (Chain at = chain; at != null && it != null; at = at.rest) { it = at.first.apply(it); }
        return it;
    }
}
