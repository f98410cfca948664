package dev.cellarcliff.rx;

import io.reactivex.rxjava3.core.BackpressureStrategy;
import io.reactivex.rxjava3.core.Flowable;
import io.reactivex.rxjava3.core.Observable;
import io.reactivex.rxjava3.core.Observer;
import io.reactivex.rxjava3.disposables.Disposable;
import io.reactivex.rxjava3.plugins.RxJavaPlugins;
import io.reactivex.rxjava3.subjects.PublishSubject;
import java.util.ArrayList;
import java.util.Arrays;
import java.util.Collections;
import java.util.List;
import java.util.Random;
import java.util.concurrent.CopyOnWriteArrayList;
import java.util.concurrent.CyclicBarrier;
import java.util.concurrent.atomic.AtomicInteger;

/**
 * Programs made at random: Programs MANY [SEED] [beside|shared|wild|four|twice]. Each is a few pipelines over subjects, and actions: an item, an end, a
 * subscription, a disposal; observers act as well. Of every second seed the pipelines are Flowables.
 *
 * beside: no source has two observers, and no notifier ends as it is subscribed to; RxJava's own operators run the same program, and all that
 * is told, made and released is compared at every action. shared: with shares, and observers that push; how many programs RxJava tells otherwise is counted. wild: observers, mappers,
 * suppliers and releases push, end, subscribe, dispose and raise. four: the same, and four threads act at once.
 * twice: as wild, with all left out that needs no engine, and again with all given to it; all that happens has to be the same, in its order. Of all each resource has to be released once, nobody is told
 * anything behind an end or a disposal or within another item, and nothing may be left.
 */
public final class Programs {
    private Programs() { }

    enum Kind { FRESH, HOT, JUST, RANGE, EMPTY, ERROR, NEVER, USING, FLAT, TWO, CONCAT, SWITCH, UNTIL, FINALLY, MAP, FILTER, TAKE, SHARE }

    /** A pipeline. */
    static final class Op {
        final Kind kind;
        final int number;
        final Op[] below;

        Op(Kind kind, int number, Op... below) {
            this.kind = kind;
            this.number = number;
            this.below = below;
        }

        /**
         * Whether the engine tells its items. Subjects of RxJava's tell one within another, its take an end and its map an item behind a
         * disposal, and what is mapped from one item that is known it assembles otherwise.
         */
        boolean isEngines() {
            switch (kind) {
                case MAP: case TAKE: return false;
                case FILTER: return below[0].isEngines();
                case FLAT: case TWO: case CONCAT: case SWITCH: return below[0].kind != Kind.JUST && below[0].kind != Kind.EMPTY;
                default: return kind.ordinal() >= Kind.USING.ordinal();
            }
        }

        /** Whether RxJava's concatMap polls it: then a doFinally there acts when the next item is wanted, and not at the end. */
        boolean isPolled() {
            switch (kind) {
                case JUST: case RANGE: case EMPTY: return true;
                case MAP: case FILTER: case FINALLY: return below[0].isPolled();
                default: return false;
            }
        }

        @Override public String toString() { return kind.name().toLowerCase(java.util.Locale.ROOT) + number + (below.length == 0 ? "" : Arrays.toString(below)); }
    }

    enum Do { PUSH, COMPLETE, FAIL, SUBSCRIBE, DISPOSE, RAISE, NOTHING }

    static final class Action {
        final Do what;
        final int whom, value;

        Action(Do what, int whom, int value) {
            this.what = what;
            this.whom = whom;
            this.value = value;
        }

        @Override public String toString() { return what + " " + whom + " " + value; }
    }

    enum Manner { BESIDE, SHARED, WILD, FOUR, TWICE }

    /** What is made of a seed. */
    static final class Program {
        final Manner manner;
        final boolean isFlowable;
        final Random random;
        final List<Op> shares = new ArrayList<>(), roots = new ArrayList<>();
        final List<Action> actions = new ArrayList<>();
        /** What callbacks do, in their order. */
        final Action[] within = new Action[40];

        Program(long seed, Manner manner) {
            this.manner = manner;
            isFlowable = seed % 2 == 0;
            random = new Random(seed);
            if (manner != Manner.BESIDE) {
                for (int i = random.nextInt(3); i > 0; i--) { shares.add(new Op(Kind.SHARE, 0, op(2))); }
            }
            for (int i = 1 + random.nextInt(2); i > 0; i--) { roots.add(op(3)); }
            for (int i = 0; i < roots.size(); i++) { actions.add(new Action(Do.SUBSCRIBE, i, 0)); }
            for (int i = 4 + random.nextInt(10); i > 0; i--) { actions.add(action(false)); }
            for (int i = 0; i < within.length; i++) { within[i] = random.nextInt(3) == 0 ? action(true) : new Action(Do.NOTHING, 0, 0); }
        }

        boolean isWild() { return manner == Manner.WILD || manner == Manner.FOUR || manner == Manner.TWICE; }

        private Op op(int depth) {
            int number = random.nextInt(3);
            if (depth == 0 || random.nextInt(6) == 0) {
                switch (random.nextInt(manner == Manner.BESIDE ? 8 : 12)) {
                    case 0: return new Op(Kind.JUST, number);
                    case 1: return new Op(Kind.RANGE, number);
                    case 2: return new Op(Kind.EMPTY, number);
                    case 3: return new Op(random.nextBoolean() ? Kind.ERROR : Kind.NEVER, number);
                    case 4: case 5: case 6: case 7: return new Op(Kind.FRESH, number);
                    case 8: case 9: return shares.isEmpty() ? new Op(Kind.HOT, number) : shares.get(random.nextInt(shares.size()));
                    default: return new Op(Kind.HOT, number);
                }
            }
            switch (random.nextInt(12)) {
                case 10: return new Op(Kind.TWO, number, op(depth - 1), op(depth - 1), op(depth - 1));
                case 11: return new Op(Kind.CONCAT, number, op(depth - 1), op(depth - 1), op(depth - 1));
                case 0: case 1: return new Op(Kind.USING, random.nextInt(8), op(depth - 1));
                case 2: case 3: return new Op(Kind.FLAT, number, op(depth - 1), op(depth - 1), op(depth - 1));
                case 4: case 5: return new Op(Kind.SWITCH, number, op(depth - 1), op(depth - 1), op(depth - 1));
                case 6: return new Op(Kind.UNTIL, number, op(depth - 1), manner == Manner.BESIDE ? new Op(Kind.USING, 1, new Op(Kind.FRESH, 0)) : op(depth - 1));
                case 7: return new Op(Kind.FINALLY, number, op(depth - 1));
                default: return new Op(random.nextInt(3) == 0 ? Kind.MAP : random.nextBoolean() ? Kind.FILTER : Kind.TAKE, number, op(depth - 1));
            }
        }

        private Action action(boolean isWithin) {
            int whom = random.nextInt(6), value = random.nextInt(20), which = random.nextInt(20);
            if (isWithin && manner == Manner.BESIDE) { return new Action(which < 3 ? Do.DISPOSE : Do.NOTHING, whom, 0); }
            if (isWithin && isWild() && which == 19) { return new Action(Do.RAISE, 0, 0); }
            return new Action(which < 12 ? Do.PUSH : which < 14 ? Do.COMPLETE : which < 15 ? Do.FAIL : which < 17 ? Do.SUBSCRIBE : Do.DISPOSE, whom, value);
        }
    }

    /** A run of a program. */
    static final class Run {
        final Program program;
        final List<String> log = Collections.synchronizedList(new ArrayList<>()), wrong = Collections.synchronizedList(new ArrayList<>());
        final List<PublishSubject<Integer>> subjects = new CopyOnWriteArrayList<>();
        final List<Seen> seen = new CopyOnWriteArrayList<>();
        final java.util.Map<Op, Observable<Integer>> shares = new java.util.IdentityHashMap<>();
        final List<Observable<Integer>> roots = new ArrayList<>();
        final AtomicInteger made = new AtomicInteger(), released = new AtomicInteger(), callbacks = new AtomicInteger();
        final ThreadLocal<int[]> deep = ThreadLocal.withInitial(() -> new int[1]);

        Run(Program program) {
            this.program = program;
            for (int i = 0; i < 3; i++) { subjects.add(PublishSubject.create()); }
            for (Op share : program.shares) { shares.put(share, build(share.below[0]).share()); }
            for (Op root : program.roots) { roots.add(program.isFlowable ? flowable(root).toObservable() : build(root)); }
        }

        void say(String what) { log.add(what); }

        int[] make() {
            int number = made.getAndIncrement();
            say("made " + number);
            return new int[] {number, 0};
        }

        void release(int[] it) {
            released.getAndIncrement();
            say("released " + it[0]);
            synchronized (it) {
                if (it[1]++ > 0) { wrong.add("released twice " + it[0]); }
            }
        }

        /** A callback does what the program has for it. */
        void callback(boolean mayRaise) {
            if (program.manner == Manner.BESIDE && !mayRaise) { return; }
            int[] depth = deep.get();
            int at = depth[0] > 3 ? program.within.length : callbacks.getAndIncrement();
            if (at >= program.within.length) { return; }
            Action action = program.within[at];
            depth[0]++;
            try {
                if (action.what == Do.RAISE) {
                    if (mayRaise) { throw new IllegalStateException("raised"); }
                } else {
                    act(action);
                }
            } finally {
                depth[0]--;
            }
        }

        /** Callbacks that are not an observer's: quiet unless the program is wild. */
        void inside() { if (program.isWild()) { callback(true); } }

        void act(Action action) {
            switch (action.what) {
                case PUSH: subjects.get(action.whom % subjects.size()).onNext(action.value); break;
                case COMPLETE: subjects.get(action.whom % subjects.size()).onComplete(); break;
                case FAIL: subjects.get(action.whom % subjects.size()).onError(new Exception("f" + action.value)); break;
                case SUBSCRIBE: if (seen.size() < 12) { Seen it = new Seen(seen.size(), action.whom % roots.size()); seen.add(it); roots.get(it.root).subscribe(it); } break;
                case DISPOSE: if (!seen.isEmpty()) { seen.get(action.whom % seen.size()).dispose(); } break;
                default:
            }
        }

        Flowable<Integer> flowable(Op op) {
            int number = op.number;
            switch (op.kind) {
                case USING: {
                    Flowable<Integer> below = flowable(op.below[0]);
                    return Flowable.using(() -> supply(number), it -> source(number, below), it -> dispose(number, it), number % 2 == 0);
                }
                case FLAT: case TWO: case CONCAT: case SWITCH: {
                    Flowable<Integer> one = flowable(op.below[1]), other = flowable(op.below[2]), first = flowable(op.below[0]), source = op.below[0].isPolled() ? first.hide() : first;
                    io.reactivex.rxjava3.functions.Function<Integer, Flowable<Integer>> mapper = v -> isFirst(v) ? one : other;
                    return op.kind == Kind.FLAT ? source.flatMap(mapper) : op.kind == Kind.TWO ? source.flatMap(mapper, 2)
                        : op.kind == Kind.CONCAT ? source.concatMap(mapper) : source.switchMap(mapper);
                }
                case UNTIL: return flowable(op.below[0]).takeUntil(flowable(op.below[1]));
                case FINALLY: {
                    Flowable<Integer> below = flowable(op.below[0]);
                    return Flowable.defer(() -> {
                        int[] it = make();
                        return below.doFinally(() -> dispose(0, it));
                    });
                }
                case MAP: return flowable(op.below[0]).map(this::mapped);
                case FILTER: return flowable(op.below[0]).filter(v -> isIn(number, v));
                case TAKE: return flowable(op.below[0]).take(1 + number);
                default:  // RxJava's buffer takes items of one thread at a time; filled by four it is emptied without end
                    return (program.manner == Manner.FOUR ? build(op).serialize() : build(op)).toFlowable(BackpressureStrategy.BUFFER);
            }
        }

        private int[] supply(int number) throws Exception {
            inside();
            if (number == 7) { throw new Exception("make"); }
            return make();
        }

        private <T> T source(int number, T below) throws Exception {
            inside();
            if (number == 6) { throw new Exception("source"); }
            return below;
        }

        private void dispose(int number, int[] it) throws Exception {
            release(it);
            inside();
            if (number == 5) { throw new Exception("release"); }
        }

        private boolean isFirst(int v) throws Exception {
            inside();
            if (v % 11 == 10) { throw new Exception("mapper"); }
            return v % 2 == 0;
        }

        private int mapped(int v) throws Exception {
            inside();
            if (v % 13 == 12) { throw new Exception("map"); }
            return v + 1;
        }

        private boolean isIn(int number, int v) throws Exception {
            if (v % 13 == 11) { throw new Exception("filter"); }
            return v % 3 != number;
        }

        Observable<Integer> build(Op op) {
            int number = op.number;
            switch (op.kind) {
                case FRESH: return Observable.defer(() -> {
                    PublishSubject<Integer> subject = PublishSubject.create();
                    subjects.add(subject);
                    return subject;
                });
                case HOT: return subjects.get(number);
                case JUST: return Observable.just(number);
                case RANGE: return Observable.range(number, 3);
                case EMPTY: return Observable.empty();
                case ERROR: return Observable.error(new Exception("e" + number));
                case NEVER: return Observable.never();
                case SHARE: return shares.get(op);
                case USING: {
                    Observable<Integer> below = build(op.below[0]);
                    return Observable.using(() -> supply(number), it -> source(number, below), it -> dispose(number, it), number % 2 == 0);
                }
                case FLAT: case TWO: case CONCAT: case SWITCH: {
                    Observable<Integer> one = build(op.below[1]), other = build(op.below[2]);
                    io.reactivex.rxjava3.functions.Function<Integer, Observable<Integer>> mapper = v -> isFirst(v) ? one : other;
                    Observable<Integer> source = op.below[0].isPolled() ? build(op.below[0]).hide() : build(op.below[0]);
                    return op.kind == Kind.FLAT ? source.flatMap(mapper) : op.kind == Kind.TWO ? source.flatMap(mapper, 2)
                        : op.kind == Kind.CONCAT ? source.concatMap(mapper) : source.switchMap(mapper);
                }
                case UNTIL: return build(op.below[0]).takeUntil(build(op.below[1]));
                case FINALLY: {
                    Observable<Integer> below = build(op.below[0]);
                    return Observable.defer(() -> {
                        int[] it = make();
                        return below.doFinally(() -> dispose(0, it));
                    });
                }
                case MAP: return build(op.below[0]).map(this::mapped);
                case FILTER: return build(op.below[0]).filter(v -> isIn(number, v));
                default: return build(op.below[0]).take(1 + number);
            }
        }

        final class Seen implements Observer<Integer>, Disposable {
            final int number, root;
            private volatile Disposable given;
            private final AtomicInteger in = new AtomicInteger();
            private volatile boolean isOver, isDisposed;

            Seen(int number, int root) {
                this.number = number;
                this.root = root;
            }

            @Override public void dispose() {
                isDisposed = true;
                if (given != null) { given.dispose(); }
            }

            @Override public boolean isDisposed() { return isDisposed; }

            @Override public void onSubscribe(Disposable it) {
                given = it;
                if (isDisposed) { it.dispose(); }
            }

            /** A filter above all is RxJava's own: where its function fails it disposes of what is below, and tells its error whatever a release there did. */
            private boolean isTheirFiltersOwn(String what) { return program.roots.get(root).kind == Kind.FILTER && what.equals("error filter"); }

            private void told(String what, boolean isEnd) {
                if (program.roots.get(root).isEngines()) {
                    if (in.get() > 0) { wrong.add(number + " told " + what + " within an item"); }
                    if (isOver) { wrong.add(number + " told " + what + " behind its end"); }
                    if (isDisposed && program.manner != Manner.FOUR && !isTheirFiltersOwn(what)) { wrong.add(number + " told " + what + " behind its disposal"); }
                }
                if (isDisposed) { return; }
                say(number + " " + what);
                isOver = isEnd;
                in.incrementAndGet();
                try {
                    callback(!isEnd || !program.isFlowable);  // an RxJava's doFinally, as a Flowable has where it is asked for a few items, does not act then
                } finally {
                    in.decrementAndGet();
                }
            }

            @Override public void onNext(Integer v) { told(String.valueOf(v), false); }

            @Override public void onError(Throwable why) {
                String text = why instanceof io.reactivex.rxjava3.exceptions.CompositeException ? ((io.reactivex.rxjava3.exceptions.CompositeException) why).getExceptions().toString() : why.getMessage();
                told("error " + text, true);
            }

            @Override public void onComplete() { told("end", true); }
        }

        /** What came of each action. */
        List<List<String>> go() {
            List<List<String>> all = new ArrayList<>();
            if (program.manner == Manner.FOUR) { all.add(took(this::actAtOnce)); } else { for (Action action : program.actions) { all.add(took(() -> act(action))); } }
            for (int i = 0; i < seen.size(); i++) { all.add(took(seen.get(i)::dispose)); }
            if (made.get() != released.get()) { wrong.add("made " + made + " released " + released); }
            for (PublishSubject<Integer> subject : subjects) { if (subject.hasObservers()) { wrong.add("a subject has an observer yet"); } }
            return all;
        }

        /** Four threads act at once. */
        private void actAtOnce() {
            AtomicInteger next = new AtomicInteger();
            CyclicBarrier together = new CyclicBarrier(4);
            Thread[] all = new Thread[4];
            for (int t = 0; t < all.length; t++) {
                all[t] = new Thread(() -> {
                    try {
                        together.await();
                    } catch (Exception why) {
                        wrong.add(why.toString());
                    }
                    for (int i; (i = next.getAndIncrement()) < 4 * program.actions.size();) {
                        try {
                            act(program.actions.get(i % program.actions.size()));
                        } catch (IllegalStateException | NullPointerException why) {
                            // as a callback raised it
                        }
                    }
                });
                all[t].setUncaughtExceptionHandler((thread, why) -> wrong.add("raised " + why));
                all[t].start();
            }
            for (Thread each : all) {
                try {
                    each.join();
                } catch (InterruptedException why) {
                    wrong.add(why.toString());
                }
            }
        }

        private List<String> took(Runnable action) {
            log.clear();
            try {
                action.run();
            } catch (IllegalStateException | NullPointerException why) {
                if (!program.isWild()) { throw why; }
            }
            return new ArrayList<>(log);
        }
    }

    /** What is told, in order; behind it what is made and released, without its order: see README. */
    private static List<List<String>> apart(List<List<String>> all) {
        List<List<String>> apart = new ArrayList<>();
        for (List<String> each : all) {
            List<String> told = new ArrayList<>(each), rest = new ArrayList<>(each);
            told.removeIf(it -> !Character.isDigit(it.charAt(0)));
            rest.removeIf(it -> Character.isDigit(it.charAt(0)));
            rest.sort(null);
            told.addAll(rest);
            apart.add(told);
        }
        return apart;
    }

    public static void main(String[] words) {
        int many = Integer.parseInt(words[0]);
        long seed = words.length > 1 ? Long.parseLong(words[1]) : 1;
        Manner manner = Manner.valueOf(words.length > 2 ? words[2].toUpperCase(java.util.Locale.ROOT) : "BESIDE");
        boolean isLoud = many == 1;
        int unlike = 0, faults = 0, told = 0;
        RxJavaPlugins.setErrorHandler(why -> { });
        Engine leavesOut = Engine.current(), isGivenAll = Engine.renewWhole();
        Engine.use(leavesOut);
        for (long at = seed; at < seed + many; at++) {
            Program program = new Program(at, manner);
            List<List<String>> theirs = program.isWild() ? null : new Run(program).go();
            Hooks.install();
            if (manner == Manner.TWICE) {
                Engine.use(isGivenAll);
                theirs = new Run(program).go();
                Engine.use(leavesOut);
            }
            Run run = new Run(program);
            List<List<String>> ours = run.go();
            Hooks.uninstall();
            for (List<String> each : ours) { told += each.size(); }
            List<String> wrong = run.wrong;
            String left = Arrays.toString(Engine.current().counts());
            if (!left.equals("[0, 0, 0, 0, 0, 0]")) {
                wrong.add("left " + left);
                leavesOut = Engine.renew();
            }
            boolean isUnlike = theirs != null && !(manner == Manner.TWICE ? theirs.equals(ours) : apart(theirs).equals(apart(ours)));
            if (isUnlike && manner == Manner.TWICE) { wrong.add("given to the engine it is otherwise"); }
            if (isUnlike) { unlike++; }
            if (!wrong.isEmpty()) { faults++; }
            if (isLoud || !wrong.isEmpty() && faults < 6 || isUnlike && manner == Manner.BESIDE && unlike < 6) {
                System.out.println("seed " + at + " " + program.roots + (program.shares.isEmpty() ? "" : " shares " + program.shares) + " " + wrong);
                for (int i = 0; i < ours.size(); i++) {
                    Object action = i < program.actions.size() ? program.actions.get(i) : "dispose";
                    if (isLoud || theirs == null || !ours.get(i).equals(theirs.get(i))) { System.out.println("  " + action + "\n    ours   " + ours.get(i) + (theirs == null ? "" : "\n    theirs " + theirs.get(i))); }
                }
            }
        }
        System.out.println(many + " programs, " + told + " told, " + unlike + " unlike RxJava, " + faults + " with faults");
        System.exit(faults > 0 || manner == Manner.BESIDE && unlike > 0 ? 1 : 0);
    }
}
