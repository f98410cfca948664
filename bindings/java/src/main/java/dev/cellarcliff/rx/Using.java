package dev.cellarcliff.rx;

import io.reactivex.rxjava3.functions.Consumer;
import io.reactivex.rxjava3.functions.Function;
import io.reactivex.rxjava3.functions.Supplier;
import java.util.Objects;

/** A resource for as long as its source is subscribed to. */
final class Using extends Operator.Plain {
    private final Supplier<?> supplier;
    private final Function<Object, ?> mapper;
    private final Consumer<Object> disposer;
    private final boolean isEager, failsFirst;

    Using(Supplier<?> supplier, Function<Object, ?> mapper, Consumer<Object> disposer, boolean isEager) { this(supplier, mapper, disposer, isEager, false); }

    /** If it fails first, what is late is released behind the error of its own source function too, as RxJava's Single, Maybe, Completable do. */
    Using(Supplier<?> supplier, Function<Object, ?> mapper, Consumer<Object> disposer, boolean isEager, boolean failsFirst) {
        this.supplier = supplier;
        this.mapper = mapper;
        this.disposer = disposer;
        this.isEager = isEager;
        this.failsFirst = failsFirst && !isEager;
    }

    @Override public int level() { return Merge.UNSEEN; }

    @Override public void open(Place at) {
        Engine engine = at.tree.engine;
        Node node = new Node();
        Place source = at.below(node);
        if (at.isExchange()) {  // what stands there gives way before the resource is made
            if (engine.open(at, Native.OPEN | Native.PASS << 16, node, false, null, null)) { source.open(this); }
            return;
        }
        Resource resource = new Resource();
        Object below;
        try {
            resource.it = supplier.get();
        } catch (Throwable why) {
            Operator.fail(at, why);
            return;
        }
        try {
            below = Objects.requireNonNull(mapper.apply(resource.it), "The sourceSupplier returned a null ObservableSource");
        } catch (Throwable why) {
            try {
                Operator.fail(at, failsFirst ? why : resource.releaseBehind(why));
            } finally {
                if (failsFirst) { resource.releaseNow(); }
            }
            return;
        }
        Leaf leaf = null;
        boolean isHeld = false;
        try {
            leaf = source.leafOf(below);
            isHeld = engine.open(at, Native.USING, node, false, resource, leaf);
        } finally {
            if (!isHeld) { resource.releaseNow(); }
        }
        if (isHeld) { source.open(below, leaf); }
    }

    private final class Resource extends Tag {
        Object it;

        Resource() { super(Using.this.isEager); }

        @Override void release() throws Throwable { disposer.accept(it); }

        Throwable releaseBehind(Throwable error) {
            try {
                release();
            } catch (Throwable why) {
                return Errors.both(error, why);
            }
            return error;
        }

        void releaseNow() {
            try {
                release();
            } catch (Throwable why) {
                Errors.hear(why);
            }
        }
    }
}
