package dev.cellarcliff.rx;

import static dev.cellarcliff.rx.Merge.Manner.CONCAT;
import static dev.cellarcliff.rx.Merge.Manner.FLAT;
import static dev.cellarcliff.rx.Merge.Manner.SWITCH;

import io.reactivex.rxjava3.core.CompletableSource;
import io.reactivex.rxjava3.core.MaybeSource;
import io.reactivex.rxjava3.core.Observable;
import io.reactivex.rxjava3.core.SingleSource;
import io.reactivex.rxjava3.functions.Function;
import java.lang.reflect.Field;
import java.util.ArrayList;
import java.util.HashMap;
import java.util.List;
import java.util.Map;
import java.util.Objects;

/**
 * What RxJava's operators are made of, by the names of their classes and fields. An operator that this version of RxJava has otherwise, or
 * that it does not open to reflection, stays RxJava's.
 */
final class Parts {
    private static final String PREFIX = "io.reactivex.rxjava3.internal.operators.";
    private static final Map<Class<?>, Parts> ALL = new HashMap<>();
    private static final List<String> MISSING = new ArrayList<>();

    static {
        put("using", "observable.ObservableUsing", it -> new Using(it.get(0), it.get(1), it.get(2), it.get(3)), "resourceSupplier", "sourceSupplier", "disposer", "eager");
        put("flatMap", "observable.ObservableFlatMap", it -> it.failsAtOnce(2) ? new Merge(it.get(0), it.get(1), FLAT, it.most(3)) : null, "source", "mapper", "delayErrors", "maxConcurrency");
        put("switchMap", "observable.ObservableSwitchMap", it -> it.failsAtOnce(2) ? new Merge(it.get(0), it.get(1), SWITCH) : null, "source", "mapper", "delayErrors");
        put("concatMap", "observable.ObservableConcatMap", it -> it.failsAtOnce(2) ? new Merge(it.get(0), it.get(1), CONCAT) : null, "source", "mapper", "delayErrors");
        put("takeUntil", "observable.ObservableTakeUntil", it -> new Until(it.get(0), it.get(1)), "source", "other");
        put("doFinally", "observable.ObservableDoFinally", it -> new Finally(it.get(0), it.get(1)), "source", "onFinally");
        put("publish", "observable.ObservablePublish", it -> new Published(it.get(0)), "source");
        put("refCount", "observable.ObservableRefCount", it -> it.get(0) instanceof Published && it.<Integer>get(1) == 1 && it.<Long>get(2) == 0 ? new RefCount(it.get(0), (Observable<?>) it.of) : null,
            "source", "n", "timeout");
        put("map", "observable.ObservableMap", it -> it.through(Through::mapping), "source", "function");
        put("filter", "observable.ObservableFilter", it -> it.through(Through::filtering), "source", "predicate");
        put("flatMapSingle", "observable.ObservableFlatMapSingle", it -> it.merge(Parts::ofSingle, FLAT), "source", "mapper", "delayErrors");
        put("flatMapMaybe", "observable.ObservableFlatMapMaybe", it -> it.merge(Parts::ofMaybe, FLAT), "source", "mapper", "delayErrors");
        put("switchMapSingle", "mixed.ObservableSwitchMapSingle", it -> it.merge(Parts::ofSingle, SWITCH), "source", "mapper", "delayErrors");
        put("switchMapMaybe", "mixed.ObservableSwitchMapMaybe", it -> it.merge(Parts::ofMaybe, SWITCH), "source", "mapper", "delayErrors");
        put("concatMapSingle", "mixed.ObservableConcatMapSingle", it -> it.merge(Parts::ofSingle, CONCAT), "source", "mapper", "errorMode");
        put("concatMapMaybe", "mixed.ObservableConcatMapMaybe", it -> it.merge(Parts::ofMaybe, CONCAT), "source", "mapper", "errorMode");
        put("Single.using", "single.SingleUsing", it -> it.using(Parts::ofSingle).singleOrError(), "resourceSupplier", "singleFunction", "disposer", "eager");
        put("Maybe.using", "maybe.MaybeUsing", it -> it.using(Parts::ofMaybe).singleElement(), "resourceSupplier", "sourceSupplier", "resourceDisposer", "eager");
        put("Completable.using", "completable.CompletableUsing", it -> it.using(Parts::ofCompletable).ignoreElements(), "resourceSupplier", "completableFunction", "disposer", "eager");
        put("Single.doFinally", "single.SingleDoFinally", it -> new Finally(ofSingle(it.get(0)), it.get(1)).singleOrError(), "source", "onFinally");
        put("Maybe.doFinally", "maybe.MaybeDoFinally", it -> new Finally(ofMaybe(it.get(0)), it.get(1)).singleElement(), "source", "onFinally");
        put("Completable.doFinally", "completable.CompletableDoFinally", it -> new Finally(ofCompletable(it.get(0)), it.get(1)).ignoreElements(), "source", "onFinally");
        flowable("using", "Using", it -> new Using(it.get(0), it.publisher("sourceSupplier"), it.get(2), it.get(3)), "resourceSupplier", "sourceSupplier", "disposer", "eager");
        flowable("flatMap", "FlatMap", it -> it.failsAtOnce(2) ? it.asking(FLAT, it.most(3), it.most(3)) : null, "source", "mapper", "delayErrors", "maxConcurrency");
        flowable("switchMap", "SwitchMap", it -> it.failsAtOnce(2) ? new Merge(it.get(0), it.publisher("mapper"), SWITCH) : null, "source", "mapper", "delayErrors");
        flowable("concatMap", "ConcatMap", it -> it.failsAtOnce(2) ? it.asking(CONCAT, 1, it.get(3)) : null, "source", "mapper", "errorMode", "prefetch");
        flowable("concat", "ConcatArray", it -> it.<Boolean>get(1) ? null : new Merge(Observable.fromArray(it.<Object[]>get(0)), source -> source, CONCAT), "sources", "delayError");
        flowable("takeUntil", "TakeUntil", it -> new Until(it.get(0), it.get(1)), "source", "other");
        flowable("doFinally", "DoFinally", it -> new Finally(it.get(0), it.get(1)), "source", "onFinally");
        flowable("map", "Map", it -> it.through(Through::mapping), "source", "mapper");
        flowable("filter", "Filter", it -> it.through(Through::filtering), "source", "predicate");
        put("Flowable.merge of an array", "flowable.FlowableFromArray", it -> null, "array");
        put("merge and concat of an array", "observable.ObservableFromArray", it -> null, "array");
    }

    private final java.util.function.Function<Given, Object> make;
    private final Field[] fields;

    private Parts(java.util.function.Function<Given, Object> make, Field[] fields) {
        this.make = make;
        this.fields = fields;
    }

    private static void put(String operator, String name, java.util.function.Function<Given, Object> make, String... fields) {
        try {
            Class<?> type = Class.forName(PREFIX + name);
            Field[] all = new Field[fields.length];
            for (int i = 0; i < all.length; i++) {
                all[i] = field(type, fields[i]);
                all[i].setAccessible(true);
            }
            ALL.put(type, new Parts(make, all));
        } catch (ReflectiveOperationException | RuntimeException why) {
            MISSING.add(operator + ": " + why);
        }
    }

    private static void flowable(String operator, String name, java.util.function.Function<Given, Operator> make, String... fields) {
        put("Flowable." + operator, "flowable.Flowable" + name, it -> {
            Operator ours = make.apply(it);
            return ours == null ? null : new Asked(it.of, ours);
        }, fields);
    }

    private static Field field(Class<?> type, String name) throws NoSuchFieldException {
        for (Class<?> at = type; at != null; at = at.getSuperclass()) {
            for (Field each : at.getDeclaredFields()) {
                if (each.getName().equals(name)) { return each; }
            }
        }
        throw new NoSuchFieldException(type.getName() + '.' + name);
    }

    private static Observable<?> ofSingle(Object source) { return Observable.fromSingle((SingleSource<?>) Objects.requireNonNull(source, "a null SingleSource was returned")); }

    private static Observable<?> ofMaybe(Object source) { return Observable.fromMaybe((MaybeSource<?>) Objects.requireNonNull(source, "a null MaybeSource was returned")); }

    private static Observable<?> ofCompletable(Object source) {
        return Observable.fromCompletable((CompletableSource) Objects.requireNonNull(source, "a null CompletableSource was returned"));
    }

    static List<String> missing() { return List.copyOf(MISSING); }

    /** The operator over the engine, or what was given where the engine has none. */
    @SuppressWarnings("unchecked")
    static <T> T exchange(T given) {
        Parts parts = ALL.get(given.getClass());
        Object made = parts == null ? null : parts.make.apply(new Given(given, parts.fields));
        return made == null ? given : (T) made;
    }

    /** An operator of RxJava's, and its parts in their order. */
    private static final class Given {
        final Object of;
        private final Field[] fields;

        Given(Object of, Field[] fields) {
            this.of = of;
            this.fields = fields;
        }

        @SuppressWarnings("unchecked")
        <T> T get(int i) {
            try {
                return (T) fields[i].get(of);
            } catch (IllegalAccessException why) {
                throw new AssertionError(why);
            }
        }

        Observable<?> merge(Function<Object, Observable<?>> of, Merge.Manner manner) {
            Function<Object, ?> mapper = get(1);
            return failsAtOnce(2) ? new Merge(get(0), item -> of.apply(mapper.apply(item)), manner) : null;
        }

        Observable<?> using(Function<Object, Observable<?>> of) {
            Function<Object, ?> source = get(1);
            return new Using(get(0), resource -> of.apply(source.apply(resource)), get(2), get(3), true);
        }

        /** A function on items of an operator. */
        <T> Operator through(java.util.function.Function<T, Function<Object, ?>> function) {
            return get(0) instanceof Operator ? new Through(of, get(0), function.apply(get(1))) : null;
        }

        /** What a Flowable's function makes, of which RxJava tells by its own name if it is null. */
        Function<Object, ?> publisher(String function) {
            Function<Object, ?> given = get(1);
            return it -> Objects.requireNonNull(given.apply(it), "The " + function + " returned a null Publisher");
        }

        /** A Flowable's, which asks its source for so many items at first unless it asks for all. */
        Operator asking(Merge.Manner manner, int most, int asks) { return new Merge(get(0), publisher("mapper"), manner, most, most == Integer.MAX_VALUE ? 0 : asks); }

        /** The array that it reads, if that is all that it reads. */
        private Object[] array() {
            Object source = get(0);
            Parts array = ALL.get(source.getClass());
            return array != null && array.fields[0].getName().equals("array") ? new Given(source, array.fields).get(0) : null;
        }

        /** How many at a time, if there are more. */
        int most(int i) {
            int most = get(i);
            Object[] all = array();
            return all != null && all.length <= most ? Integer.MAX_VALUE : most;
        }

        /** Whether an error ends all at once, by an operator's word for that; an array has none that could wait. */
        boolean failsAtOnce(int i) {
            Object word = get(i);
            return word instanceof Boolean ? !(Boolean) word : word.toString().equals("IMMEDIATE") || word.toString().equals("BOUNDARY") && array() != null;
        }
    }
}
