package dev.cellarcliff.rx;

import static dev.cellarcliff.rx.Native.*;

import io.reactivex.rxjava3.core.Observer;
import java.lang.ref.PhantomReference;
import java.lang.ref.Reference;
import java.lang.ref.WeakReference;
import java.nio.ByteBuffer;
import java.nio.charset.StandardCharsets;
import java.util.ArrayList;
import java.util.List;
import java.util.Map;
import java.util.Set;
import java.util.concurrent.ConcurrentHashMap;

/**
 * An engine of the library, and the objects for which its words stand. A command is made under the lock, and what it came to is read there;
 * what is to be done then is done outside it. An item that is only heard is told ahead of it, without the lock, and given to it as soon as something else
 * comes: {@link Reach} has who is kept out by that.
 *
 * The lock is a monitor, which the JVM leaves whatever is raised, also where the stack has no room for a call. Each object that a
 * command needs is made before it, and a command is not made where the stack is short, so that between a command and what it hands out
 * nothing fails.
 */
final class Engine {
    private static volatile Engine current = new Engine(new Spares(), 0, null, true);

    /** The engine of what is subscribed to now. */
    static Engine current() { return current; }

    /** For tests: what comes from now on has an engine of its own. */
    static Engine renew() { return renew(0, null); }

    /** What comes from now on has an engine with a history of so many events. */
    static Engine renew(int events, History history) { return current = new Engine(new Spares(), events, history, history == null); }

    /** For tests: an engine that is given all items, and one of those that there are. */
    static Engine renewWhole() { return current = new Engine(new Spares(), 0, null, false); }

    static void use(Engine it) { current = it; }

    private final long desk;
    /** If it is kept. */
    private final History history;
    /** Whether items that are only heard may be left out: where the history is kept, all stand in it. */
    final boolean leavesOut;
    private final ByteBuffer memory;
    private final ThreadLocal<Stack> stacks = ThreadLocal.withInitial(Stack::new);
    private final Slots<Tree.Ref> trees = new Slots<>();
    private final Slots<Object> values = new Slots<>();
    /** How many threads have calls under way; whether one of them left something; what may be told yet, though nobody holds it. */
    private int active;
    private boolean isLeft;
    /** Reaches in which calls were stopped; items whose call could not be served. */
    private Reach stopped;
    private Ahead unserved;
    private Tree pinned;
    private final Spares spares;
    private static final int MOST_GUARDS = 1024;
    private Guard guards;
    private int guardCount;
    private long rounds;
    /** Those that have room for what waits, of which the engine was not told yet. */
    private Bounded toGoOn;

    private Engine(Spares spares, int events, History history, boolean leavesOut) {
        this.spares = spares;
        this.history = history;
        this.leavesOut = leavesOut;
        desk = Native.open(events);
        if (desk == 0) { throw new OutOfMemoryError("cellarcliff: no memory for an engine"); }
        try {
            memory = Native.memory(desk);
            new Desk(this, desk);
        } catch (Throwable why) {
            Native.drop(desk);
            throw why;
        }
        Errors.prepare();
        Guard.prepare();
    }

    /** Gives back the memory of an engine that nobody can reach any more. */
    private static final class Desk extends PhantomReference<Engine> implements Collected {
        private static final Set<Desk> ALL = ConcurrentHashMap.newKeySet();
        private final long at;

        Desk(Engine engine, long at) {
            super(engine, QUEUE);
            this.at = at;
            ALL.add(this);
        }

        @Override public void close() {
            ALL.remove(this);
            Native.drop(at);
        }
    }

    /** Further engines, for shares that find no hub in one: each share tries all that there are, from the one on that had room last. */
    private static final class Spares {
        private final List<WeakReference<Engine>> all = new ArrayList<>();
        private int latest;

        synchronized Engine next(Share share) {
            all.removeIf(each -> each.get() == null);
            Engine it = null;
            for (; it == null && share.tried < all.size(); share.tried++) {
                latest = (share.tried > 0 ? latest + 1 : latest) % all.size();
                it = all.get(latest).get();
            }
            return it == null ? add(share) : it;
        }

        private Engine add(Share share) {
            Engine it = new Engine(this, 0, null, true);
            latest = all.size();
            all.add(new WeakReference<>(it));
            share.tried++;
            return it;
        }
    }

    // a step and what it came to: all under the lock -------------------------------------------------------------------------

    private void step(Stack stack, Reach reach, long head, long hub, long slot, long number, long user, long word, Object value) {
        step(stack, reach, head, hub, slot, number, user, word, value, 0, null);
    }

    private void step(Stack stack, Reach within, long head, long hub, long slot, long number, long user, long word, Object value, long above, Tree.Releases around) {
        Reach reach = within.now();
        enter(stack, reach);
        long told, depth = ++stack.depth;
        try {
            told = Native.step(desk, stack.by, depth | above, stack.begun, head, hub, slot, number, user, word, around == null ? 0 : around.noted);
            if (told == NO_STACK) { throw new StackOverflowError(); }
        } catch (Throwable why) {
            stack.depth--;
            reach.leave();
            throw why;
        }
        stack.status = (int) told & 255;
        stack.isBoth = (told & BOTH) != 0;
        if (stack.isBoth && (above & GOES_ON) != 0) { stack.depth--; }
        if (depth == 1) { active++; }
        int copies = (told & (MORE | OWN)) == 0 ? 0 : (int) memory.getLong(COPIES);
        if ((told & MORE) != 0) { readClosings(stack, stack.isBoth ? NEXT : (int) head & 255, value); }
        if (copies > 0 && ((told & OWN) == 0 || toGoOn != null)) { values.put(value, copies); }
        note(stack, told, around);
        boolean isAlone = (told & (HANDED | OWN | MORE)) == (HANDED | OWN) && toGoOn == null;
        hand(stack, reach, toGoOn == null ? told : goOn(stack, told), value, around);
        stack.isOut = isAlone && stack.kind == E_PROJECT && reach.leaveAlone();
    }

    /** Has those that are to go on go on behind what stands in their lanes. What was handed out and not begun comes again. */
    private long goOn(Stack stack, long told) {
        for (Bounded it; (it = toGoOn) != null;) {
            long again = Native.step(desk, stack.by, stack.depth, stack.begun, PUT | (long) OF_PROJECTIONS << 24, 0, it.slot, it.number, it.word, 0, 0);
            if (again == NO_STACK) { break; }
            note(stack, again, null);
            told = again;
            if (((int) again & 255) == NO_MEMORY) { break; }
            toGoOn = it.toGoOnNext;
            it.toGoOnNext = null;
            it.isToGoOn = false;
        }
        return told;
    }

    private void next(Stack stack, Reach reach, Tree.Releases around) { hand(stack, reach, ask(stack, around), null, around); }

    private long ask(Stack stack, Tree.Releases around) {
        long told = Native.next(desk, stack.by, stack.depth, stack.begun, around == null ? 0 : around.noted);
        note(stack, told, around);
        return told;
    }

    /** Does what was handed out and tells nobody. */
    private void note(Stack stack, long told, Tree.Releases around) {
        int many = (int) (told >>> NOTED) & 255;
        if (many == 0) { return; }
        long kinds = memory.getLong(NOTED_KINDS);
        for (int i = 0; i < many; i++, kinds >>>= 4) { done((int) kinds & 15, memory.getLong(NOTED_WORDS + 8 * i), around); }
        stack.begun = memory.getLong(BEGUN);
    }

    private void done(int kind, long user, Tree.Releases around) {
        Tree tree = trees.get((int) (user >>> 32)).tree();
        if (kind == E_GONE) {
            if (tree != null) { ((Root) tree).gone(); }
            over(tree, user);
            return;
        }
        Thing thing = told(user);
        if (thing == null) { return; }
        if (kind == E_MERGED) {
            ((Merging) thing).over();
        } else {
            hold(tree, (Tag) thing, -1);
            around.add((Tag) thing);
        }
    }

    /** A thread has no call under way any more. */
    private void rest() {
        if (--active > 0 || isLeft) { return; }
        while (pinned != null) { unpin(pinned); }
        while (stopped != null) { stopped = stopped.rest(); }
    }

    private void readClosings(Stack stack, int what, Object value) {
        int closed = (int) memory.getLong(CLOSED);
        Thing last = null;
        for (int i = 0, from = 0, at = CLOSINGS, many = ROOM; i < closed; i++) {
            if (i - from == many) {
                from = i;
                at = WORDS;
                many = (int) Native.closings(desk, i);
            }
            Thing thing = told(memory.getLong(at + 8 * (i - from)));
            if (thing == null) { continue; }
            thing.close(this, what, value);
            if (last == null) { stack.closing = thing; } else { last.closedNext = thing; }
            last = thing;
        }
    }

    private void hand(Stack stack, Reach reach, long told, Object value, Tree.Releases around) {
        for (long it = told; isDoneHere(stack, it, value);) { it = ask(stack, around); }
        if (!stack.isHanded) { reach.now().leave(); }
    }

    /** Reads what is handed out; whether it is done with that, since there is nothing to tell anybody. */
    private boolean isDoneHere(Stack stack, long told, Object value) {
        stack.isHanded = (told & HANDED) != 0;
        if (!stack.isHanded) {
            if (stack.depth > 1) { return false; }
            isLeft = false;
            rest();
            return false;
        }
        stack.begun = memory.getLong(TICKET);
        stack.from = memory.getLong(BY);
        stack.kind = (int) (told >>> KIND) & 255;
        long user = memory.getLong(USER);
        stack.tree = trees.get((int) (user >>> 32)).tree();
        stack.value = (told & CARRIES) == 0 || stack.kind == E_PUT ? null : (told & OWN) != 0 ? value : values.take((int) memory.getLong(VALUE));
        switch (stack.kind) {
            case E_NEXT:
                break;
            case E_PROJECT:
            case E_PUT:
                stack.thing = stack.tree == null ? null : stack.tree.things.get((int) user);
                break;
            case E_COMPLETED:
            case E_FAILED:
                over(stack.tree, user);
                break;
            case E_GONE:
            case E_MERGED:
                done(stack.kind, user, null);
                return true;
            case E_RELEASE:
                stack.thing = told(user);
                if (stack.thing != null) { hold(stack.tree, (Tag) stack.thing, -1); }
                break;
            default:
        }
        return false;
    }

    private void over(Tree tree, long word) {
        if (tree != null) { ((Root) tree).isOver = true; }
        settled(trees.get((int) (word >>> 32)));
    }

    private static void hold(Tree tree, Tag tag, int change) {
        if (tag.isEager) { tree.eager += change; } else { tree.late += change; }
    }

    // items told ahead: all under the lock but `tellAhead` ---------------------------------------------------------------------

    /** Tells an item that is only heard, where nothing else is under way: whether it was told, or nobody hears it any more. */
    boolean tellAhead(Leaf leaf, Tree tree, Object item) {
        Stack stack = stacks.get();
        Ahead it = stack.room();
        Share share = tree.shares();
        if (share != null && !isHeard(share)) { return false; }
        Reach reach = leaf.reach;
        if (it.reach != reach) { it.reach = reach; }
        it.slot = leaf.slot;
        it.number = leaf.number;
        it.depth = stack.depth + 1;
        it.isGiven = false;
        if (it.share != share) { it.share = share; }
        if (!reach.begin(it) && !(reach.mayBegin() && beginFirst(leaf, it))) { return false; }
        stack.depth++;
        stack.ahead = it;
        boolean isTold = true, isOver = false;
        Throwable raised = null;
        try {
            if (!leaf.isOpen()) {
                // it was closed as this began
            } else if (share == null) {
                ((Root) tree).next(item, leaf.chain);
            } else {
                isTold = share.hear(this, it, item);
            }
        } catch (Throwable why) {
            raised = why;
        }
        stack.ahead = it.outer;
        try {
            isOver = it.reach.end(it);
        } catch (StackOverflowError why) {
            // by the lock then
        }
        if (isOver) { stack.depth--; } else { raised = endGiven(stack, it, tree, raised); }
        if (share != null) { it.share = null; }
        Reference.reachabilityFence(tree);
        if (raised != null) { throw Errors.thrown(raised); }
        return isTold;
    }

    private synchronized boolean beginFirst(Leaf leaf, Ahead it) {
        it.reach = leaf.reach = leaf.reach.now();
        return it.reach.beginFirst(it);
    }

    /** Before a command in a reach: what is told ahead there is given, and whatever this stack tells ahead. */
    private void enter(Stack stack, Reach reach) {
        while (unserved != null) { stopUnserved(); }
        if (stack.ahead != null && !stack.ahead.isGiven) { give(stack.ahead); }
        Ahead it = reach.enter();
        if (it == null) { return; }
        try {
            give(it);
        } catch (Throwable why) {
            reach.putBack(it);
            throw why;
        }
    }

    /** Gives an item that is being told, and first those around it. */
    private void give(Ahead it) {
        Ahead at = it;
        while (at.outer != null && !at.outer.isGiven) { at = at.outer; }
        for (; at != it; at = at.inner) { giveOne(at); }
        giveOne(it);
    }

    /** Where memory is refused for it, it is left out all the same: then what comes within it is told within it. */
    private void giveOne(Ahead it) {
        if (it.share != null && !makeHeard(it.share)) { return; }
        long ticket = Native.give(desk, it.stack.by, it.depth, it.stack.begun, it.slot, it.number);
        if (ticket < 0) { throw new StackOverflowError(); }
        if (ticket == 0) { return; }
        it.stack.begun = ticket;
        it.isGiven = true;
        if (it.share != null) { it.heard = it.share.heard; }
        it.reach.now().enter();
        if (it.depth == 1) { active++; }
    }

    /** Makes one reach of a subscription's and a share's. */
    private Reach join(Stack stack, Reach one, Reach other) {
        if (one == other) { return other; }
        enter(stack, one);
        try {
            enter(stack, other);
        } catch (Throwable why) {
            one.leave();
            throw why;
        }
        one.join(other);
        other.leave();
        other.leave();
        return other;
    }

    /** Ends an item that was given meanwhile, and does what came behind it. What was raised. */
    private Throwable endGiven(Stack stack, Ahead it, Tree tree, Throwable raised) {
        Reach reach;
        synchronized (this) {
            reach = it.reach.now();
            if (!it.isGiven) {
                it.reach.endLast(it);
                stack.depth--;
                return raised;
            }
            it.heard = null;
            try {
                next(stack, reach, null);
            } catch (Throwable why) {
                leaveUnserved(stack, it);
                return Errors.raise(raised, why);
            }
        }
        try {
            serve(stack, reach, tree, null);
        } catch (Throwable why) {
            return Errors.raise(raised, why);
        }
        return raised;
    }

    /** There is no stack to ask what came behind it, so whoever makes the next command leaves that to others. */
    private void leaveUnserved(Stack stack, Ahead it) {
        it.nextUnserved = unserved;
        unserved = it;
        stack.depth--;
        stack.forget(it);
    }

    private void stopUnserved() {
        Ahead it = unserved;
        Native.stop(desk, it.stack.by, it.depth, it.stack.begun);
        unserved = it.nextUnserved;
        stopped(it.reach.now(), it.depth);
    }

    private void stopped(Reach reach, long depth) {
        isLeft = true;
        stopped = reach.stop(stopped);
        if (depth == 1) { rest(); }
    }

    /** Whether the items of a share's source may be told ahead. */
    private boolean isHeard(Share share) {
        if (share.heard != null) { return true; }
        synchronized (this) { return makeHeard(share); }
    }

    private static boolean makeHeard(Share share) {
        try {
            return share.makeHeard();
        } catch (OutOfMemoryError why) {
            return false;
        }
    }

    /** Those who hear an item of a share that has begun: null where somebody had come for whom it may not be told ahead. */
    synchronized Root[] heard(Share share, Ahead it) {
        if (it.isGiven) { return it.heard; }
        if (makeHeard(share)) { return share.heard; }
        it.reach.endLast(it);
        return null;
    }

    // words: all under the lock ------------------------------------------------------------------------------------------

    /** The thing of a word that is told for the last time; null if its tree was collected. */
    private Thing told(long word) {
        Tree.Ref ref = trees.get((int) (word >>> 32));
        Tree tree = ref.tree();
        Thing thing = tree == null ? null : tree.things.take((int) word);
        settled(ref);
        return thing;
    }

    private void settled(Tree.Ref ref) {
        if (--ref.owed > 0) { return; }
        trees.take(ref.index);
        ref.index = -1;
        Tree tree = ref.tree();
        ref.lose();
        if (tree == null) { return; }
        if (tree.isPinned) { unpin(tree); }
        if (tree.guard != null) { unguard(tree); }
    }

    private static final int NO_THING = -1;

    /** Room for words of a tree. */
    private void makeRoom(Tree tree, int things) {
        trees.makeRoom(1);
        tree.things.makeRoom(things);
    }

    private long word(Tree tree, Thing thing) {
        Tree.Ref ref = tree.ref;
        int many = thing == null ? 1 : thing.roles();
        if (ref.index < 0) { ref.index = trees.put(ref, 1); }
        ref.owed += many;
        return (long) ref.index << 32 | (thing == null ? NO_THING : tree.things.put(thing, many)) & 0xFFFF_FFFFL;
    }

    private void takeBack(long word) {
        Tree.Ref ref = trees.get((int) (word >>> 32));
        Thing thing = (int) word == NO_THING ? null : ref.tree().things.get((int) word);
        for (int i = thing == null ? 1 : thing.roles(); i > 0; i--) {
            if (thing != null) { ref.tree().things.take((int) word); }
            settled(ref);
        }
    }

    /** Gives a tree a guard; it has one beforehand. The lock is held. */
    private void guard(Tree tree) {
        if (tree.guard != null) { return; }
        Guard guard = guards == null ? new Guard() : guards;
        if (guards != null) { guardCount--; }
        guards = guard.next;
        guard.next = null;
        guard.tree = tree;
        tree.guard = guard;
        tree.ref.isGuarded = true;
    }

    private void unguard(Tree tree) {
        Guard guard = tree.guard;
        tree.guard = null;
        tree.ref.isGuarded = false;
        guard.tree = null;
        if (guardCount == MOST_GUARDS) { return; }
        guardCount++;
        guard.next = guards;
        guards = guard;
    }

    /** Nobody can reach a tree, says its guard: whether something of it is to be told yet. */
    synchronized boolean isAbandoned(Tree tree) {
        find(tree);
        return tree.ref.owed > 0 && tree.ref.closedBy >= 0;
    }

    /** What is at hand is there again, if it was collected: whoever disposes of what nobody could reach may come to it before its own guard does. */
    private void meet(Tree tree) {
        if (tree.ref.tree() == null) { find(tree); }
    }

    private void meet(Share share) {
        Tree one = share.anyTree();
        if (one != null) { meet(one); }
    }

    /** The tree is there again, and so are all of its shares' that were collected with it: what is told of one may be told of the others. */
    private void find(Tree tree) {
        rounds++;
        for (Tree last = isFound(tree) ? tree : null, at = last, next; at != null; at = next) {
            if (at instanceof Connection) { last = ((Connection) at).share.find(this, rounds, last); }
            for (int i = 0; i < at.things.top(); i++) {
                Thing thing = at.things.get(i);
                if (thing instanceof Share.Subscriber) { last = ((Share.Subscriber) thing).share.find(this, rounds, last); }
            }
            next = at.foundNext;
            at.foundNext = null;
        }
    }

    /** Whether it was collected, and is there again. Its guard is finalized once, so it is used no more. */
    boolean isFound(Tree tree) {
        if (tree.ref.owed == 0 || !tree.ref.find(tree)) { return false; }
        tree.guard = null;
        return true;
    }

    /** Disposes of a tree that nobody can reach. */
    void disposeOf(Tree tree) {
        if (tree instanceof Root) { ((Root) tree).dispose(); } else { disconnect((Connection) tree); }
    }

    /** Holds a tree until no call is under way, or until all of it is told: what another call has to tell it may be behind its closing. */
    void pin(Tree tree) {
        if (tree.isPinned || tree.ref.owed == 0) { return; }
        tree.isPinned = true;
        tree.pinnedAfter = pinned;
        if (pinned != null) { pinned.pinnedBefore = tree; }
        pinned = tree;
    }

    private void unpin(Tree tree) {
        tree.isPinned = false;
        if (tree.pinnedBefore == null) { pinned = tree.pinnedAfter; } else { tree.pinnedBefore.pinnedAfter = tree.pinnedAfter; }
        if (tree.pinnedAfter != null) { tree.pinnedAfter.pinnedBefore = tree.pinnedBefore; }
        tree.pinnedBefore = tree.pinnedAfter = null;
    }

    // doing what a step came to -------------------------------------------------------------------------------------------------

    /**
     * Does what the last step of this stack came to and whatever comes behind it, and ends the call. Raises what that raised. What the
     * command closed is acted on first; but where the user disposes, behind what is released around that, as RxJava does.
     */
    private void serve(Stack stack, Reach reach, Tree of, Tree.Releases around) {
        long depth = stack.depth;
        Thing closing = stack.closing;
        Throwable raised = null;
        stack.closing = null;
        boolean isOut = false;
        try {
            for (boolean isFirst = true;; isFirst = false) {
                boolean isHanded = stack.isHanded;
                int kind = stack.kind;
                long from = stack.from;
                Tree tree = stack.tree;
                Thing thing = stack.thing;
                Object value = stack.value;
                isOut = stack.isOut;
                stack.isOut = false;
                stack.tree = null;
                stack.thing = null;
                stack.value = null;
                if (isFirst && around == null) { raised = act(closing, raised); }
                if (!isHanded) { break; }
                boolean hasGone = false;
                try {
                    if (around != null && kind == E_RELEASE && tree == of) {
                        around.add((Tag) thing);
                    } else {
                        tell(stack, kind, tree, thing, value);
                        hasGone = stack.ends != null && endAndGoOn(stack, reach, (Merging) thing, isOut);
                    }
                } catch (Throwable why) {
                    raised = from == stack.by || Errors.isFatal(why) ? Errors.raise(raised, why) : Errors.hear(raised, why);
                }
                stack.depth = depth;
                if (!hasGone) {
                    synchronized (this) {
                        if (isOut) { enter(stack, reach.now()); }
                        isOut = false;
                        next(stack, reach, around);
                    }
                }
                Reference.reachabilityFence(tree);  // what else its lane has finds it
            }
            if (around != null) { raised = act(closing, around.releaseEager(raised)); }
        } catch (Throwable why) {
            stop(stack, reach, isOut, depth, of);
            throw why;
        }
        stack.depth = depth - 1;
        Reference.reachabilityFence(of);
        if (raised != null) { throw Errors.thrown(raised); }
    }

    /** Ends the leaf of an item that was known at once, and has the call go on that projected it: whether by one crossing. */
    private boolean endAndGoOn(Stack stack, Reach reach, Merging merging, boolean isOut) {
        Leaf leaf = stack.ends;
        stack.ends = null;
        try {
            synchronized (this) {
                step(stack, reach, COMPLETE, 0, leaf.slot, leaf.number, 0, 0, null, GOES_ON, null);
                if (stack.isBoth) {
                    if (!isOut) { reach.now().leave(); }  // one call of two is over
                    return true;
                }
            }
            serve(stack, reach, merging.tree, null);
        } catch (Throwable why) {
            merging.fail(why);
        }
        return false;
    }

    private void stop(Stack stack, Reach reach, boolean isOut, long depth, Tree of) {
        stack.depth = depth;
        synchronized (this) {
            isLeft = true;
            if (isOut) { reach.now().enter(); }
            if (of != null) { pin(of); }
            Native.stop(desk, stack.by, depth, stack.begun);
            stopped(reach.now(), depth);
        }
        stack.depth = depth - 1;
    }

    private static Throwable act(Thing closing, Throwable raised) {
        for (Thing thing = closing, next; thing != null; thing = next) {
            next = thing.closedNext;
            thing.closedNext = null;
            try {
                thing.closed();
            } catch (Throwable why) {
                raised = Errors.hear(raised, why);
            }
        }
        return raised;
    }

    private static void tell(Stack stack, int kind, Tree tree, Thing thing, Object value) throws Throwable {
        if (tree == null) { return; }
        switch (kind) {
            case E_NEXT:
                ((Root) tree).hear(value);
                break;
            case E_PROJECT:
                ((Merging) thing).project(value);
                break;
            case E_PUT:
                ((Bounded) thing).goOn();
                break;
            case E_COMPLETED:
            case E_FAILED:
                ((Root) tree).end(stack, (Throwable) value);
                break;
            case E_RELEASE:
                try {
                    ((Tag) thing).release();
                } catch (Throwable why) {
                    Errors.hear(why);
                }
                break;
            default:
        }
    }

    /** From within the telling of an end: does what stands behind it now. */
    void settle(Stack stack, Root root) {
        Reach reach = root.ref.reach;
        synchronized (this) {
            stack.depth++;
            reach.now().enter();  // the end is under way there
            try {
                Native.pass(desk, stack.by, stack.depth, stack.begun, true);
                next(stack, reach, null);
            } catch (Throwable why) {
                stack.depth--;
                reach.now().leave();
                throw why;
            }
        }
        serve(stack, reach, root, root.releases.around(true, 0));
    }

    // commands -------------------------------------------------------------------------------------------------------------------

    private static Throwable refused(int status) {
        return status == NO_MEMORY ? new OutOfMemoryError("cellarcliff: the engine was refused memory")
            : new IllegalStateException(status == FULL || status == TOO_MANY ? "cellarcliff: the engine has no room for more" : "cellarcliff: refused, status " + status);
    }

    /** Whether a command was done; otherwise what it names is gone. */
    private static boolean isDone(int status) {
        if (status != DONE && status != GONE && status != NOTHING_OWED) { throw Errors.thrown(refused(status)); }
        return status == DONE;
    }

    /** Tells an item: whether the leaf was open. */
    boolean next(Leaf leaf, Tree tree, Object item) {
        Stack stack = stacks.get();
        int status;
        synchronized (this) {
            meet(tree);
            values.makeRoom(1);
            step(stack, tree.ref.reach, NEXT, 0, leaf.slot, leaf.number, 0, values.next(), item);
            status = stack.status;
        }
        serve(stack, tree.ref.reach, tree, null);
        return isDone(status);
    }

    /** Tells the end: whether the leaf was open. */
    boolean end(Leaf leaf, Tree tree, Throwable error) { return make(error == null ? COMPLETE : ERROR, leaf, tree, error); }

    /** Answers an item that is projected by an error: whether that was still to be answered. */
    boolean fail(Merging merging, Throwable error) { return make(FAIL, merging, merging.tree, error); }

    /** Answers an item that is projected by nothing: whether that was still to be answered. */
    boolean decline(Merging merging) { return make(DECLINE, merging, merging.tree, null); }

    /** Ends a node below which nothing could be opened, if there is nothing. */
    void abort(Node node, Tree tree, Throwable error) { command(ABORT, node, tree, error); }

    private boolean make(int what, Node node, Tree tree, Object value) { return isDone(command(what, node, tree, value)); }

    private int command(int what, Node node, Tree tree, Object value) {
        Stack stack = stacks.get();
        int status;
        synchronized (this) {
            meet(tree);
            values.makeRoom(1);
            step(stack, tree.ref.reach, what, 0, node.slot, node.number, 0, value == null ? 0 : values.next(), value);
            status = stack.status;
        }
        serve(stack, tree.ref.reach, tree, null);
        return status;
    }

    void dispose(Root root) {
        Stack stack = stacks.get();
        Tree.Releases around;
        synchronized (this) {
            if (!root.isOpen || root.isOver) { return; }
            meet(root);
            around = root.eager > 0 ? root.releases.around(false, root.ref.index + 1) : null;
            step(stack, root.ref.reach, DISPOSE, 0, root.ref.slot, root.ref.number, 0, 0, null, 0, around);
            if (stack.status != DONE) { around = null; }
        }
        if (around == null) {
            serve(stack, root.ref.reach, root, null);
            return;
        }
        Throwable raised = null;
        try {
            serve(stack, root.ref.reach, root, around);
        } catch (Throwable why) {
            raised = why;
        }
        raised = root.releases.releaseLate(raised);
        if (raised != null) { throw Errors.thrown(raised); }
    }

    /**
     * Opens a node that has no word unless it is a thing of its tree, and that holds `tag` if there is one, and perhaps `leaf` as its source by the same
     * crossing: whether the node is open. What is projected is answered by that, so whatever comes meanwhile is projected at once, as RxJava does.
     */
    boolean open(Place at, int head, Node node, boolean hasWord, Tag tag, Leaf leaf) {
        Stack stack = stacks.get();
        Tree tree = at.tree;
        int status;
        synchronized (this) {
            makeRoom(tree, 3);
            if (tag != null) {
                if (tree.releases == null) { tree.releases = new Tree.Releases(); }
                guard(tree);
            }
            long user = at.isRoot() || hasWord ? word(tree, hasWord ? node : null) : 0, value = tag == null ? 0 : word(tree, tag), below = leaf == null ? 0 : word(tree, leaf);
            if (at.isRoot() && hasWord) { tree.ref.owed++; }
            boolean isDone = false, isBoth = false;
            try {
                step(stack, tree.ref.reach, head | at.place << 8, below, at.slot(), at.number(), user, value, null, at.letsOthersIn() | (leaf == null ? 0 : WITH_LEAF), null);
                isDone = stack.status == DONE;
                isBoth = stack.isBoth;
            } finally {
                if (leaf != null && !isBoth) { takeBack(below); }
                if (!isDone) {
                    if (at.isRoot() && hasWord) { tree.ref.owed--; }
                    if (at.isRoot() || hasWord) { takeBack(user); }
                    if (tag != null) { takeBack(value); }
                }
            }
            status = stack.status;
            if (isDone) {
                if (isBoth) { leaf.comesAlong(memory.getLong(NODE), memory.getLong(NODE + 8)); }
                opened(at, node, isBoth ? WORDS : NODE);
                if (history != null && tag != null) { history.name(memory.getLong(isBoth ? WORDS + 16 : OTHER + 8), "resource " + tree.line); }
                if (hasWord) { node.opened(user); }
                if (tag != null) { hold(tree, tag, 1); }
            }
        }
        serve(stack, tree.ref.reach, tree, null);
        leave(at);
        return isDone(status);
    }

    /**
     * Opens a leaf that has no word for an item that is known at once, and tells it, by one crossing where the opening comes to nothing else:
     * whether it is open, or was.
     */
    boolean openItem(Place at, Leaf leaf, Object item) {
        Stack stack = stacks.get();
        int status;
        boolean isTold;
        synchronized (this) {
            values.makeRoom(1);
            step(stack, at.tree.ref.reach, OPEN | LEAF << 16 | at.place << 8, 0, at.slot(), at.number(), 0, values.next(), item, WITH_ITEM | at.letsOthersIn(), null);
            status = stack.status;
            isTold = stack.isBoth;
            if (isTold || status == DONE) { leaf.has(memory.getLong(isTold ? WORDS : NODE), memory.getLong((isTold ? WORDS : NODE) + 8)); }
        }
        serve(stack, at.tree.ref.reach, at.tree, null);
        return isDone(status) && (isTold || next(leaf, at.tree, item));
    }

    /**
     * Opens a leaf that has no word for an item that is known at once and only heard, and tells it: whether it was open.
     */
    boolean openHeard(Place at, Leaf leaf, Object item) {
        Stack stack = stacks.get();
        int status;
        synchronized (this) {
            step(stack, at.tree.ref.reach, OPEN | LEAF << 16 | at.place << 8, 0, at.slot(), at.number(), 0, 0, null, at.letsOthersIn(), null);
            status = stack.status;
            if (status == DONE) { leaf.has(memory.getLong(NODE), memory.getLong(NODE + 8)); }
        }
        serve(stack, at.tree.ref.reach, at.tree, null);
        if (!isDone(status)) { return false; }
        leaf.onNext(item);
        return true;
    }

    /** The leaf of what is projected ends as its call goes on. */
    void endLast(Leaf leaf) { stacks.get().ends = leaf; }

    /** Reads the key of what was opened. The lock is held. */
    private void opened(Place at, Node node, int key) {
        node.has(memory.getLong(key), memory.getLong(key + 8));
        if (history != null && (at.isRoot() || node instanceof Share.Subscriber)) { history.name(node.number, at.tree.line); }
        if (at.isRoot()) {
            Root root = (Root) at.tree;
            root.isOpen = true;
            root.ref.closedBy = DISPOSE;
            root.ref.slot = node.slot;
            root.ref.number = node.number;
        }
    }

    /** Disposes of a root that the user disposed of while it was opened. */
    private void leave(Place at) {
        if (at.isRoot() && ((Root) at.tree).isDisposed()) { dispose((Root) at.tree); }
    }

    // so many inner sources at a time ---------------------------------------------------------------------------------------------

    /** An inner source was closed. The lock is held. */
    void left(Bounded merging) {
        if (!merging.leave() || merging.isToGoOn) { return; }
        merging.isToGoOn = true;
        merging.toGoOnNext = toGoOn;
        toGoOn = merging;
    }

    synchronized void leave(Bounded merging) { merging.leave(); }

    synchronized void enqueue(Bounded merging, Object it) { merging.enqueue(it); }

    synchronized Object enter(Bounded merging) { return merging.enter(); }

    /** It has ended, so nothing that waits is wanted any more. */
    synchronized void over(Bounded merging) { merging.over(); }

    // shares ----------------------------------------------------------------------------------------------------------------------

    /** Opens a subscriber of a share, and its connection where there is none: the status, or ENDED. */
    int subscribe(Place at, Share share) {
        Stack stack = stacks.get();
        Tree tree = at.tree;
        Share.Subscriber node = new Share.Subscriber(share, at);
        Connection made = null;
        Place source = null;
        boolean isConnected = false;
        Throwable failed = null;
        int status;
        synchronized (this) {
            if (share.engine != this) { return NO_HUB; }
            if (share.hasEnded) { return ENDED; }
            meet(share);
            if (share.kind == SHARED && !share.hasSubscriber()) {  // who comes first connects it
                made = new Connection(share, this);
                made.line = tree.line;
                source = Place.source(made);
            }
            makeRoom(tree, 1);
            guard(tree);
            Reach reach = join(stack, tree.ref.reach.now(), share.reach.now());
            long user = word(tree, node), flags = WISHES, slot = at.slot(), number = at.number();
            Share.Subscriber beside = at.isRoot() ? share.beside() : null;
            if (at.isRoot()) { tree.ref.owed++; }
            if (beside != null) {
                flags |= LANE_OF_NODE;
                slot = beside.slot;
                number = beside.number;
            }
            boolean isDone = false;
            try {
                step(stack, reach, OPEN | at.place << 8 | share.kind << 16 | flags << 24 | (long) share.level << 32, share.hub, slot, number, user, share.word, null, at.letsOthersIn(), null);
                isDone = stack.status == DONE;
            } finally {
                if (!isDone) {
                    if (at.isRoot()) { tree.ref.owed--; }
                    takeBack(user);
                }
            }
            status = stack.status;
            if (isDone) {
                share.hub = memory.getLong(HUB);
                isConnected = memory.getLong(IS_CONNECTED) != 0;
                if (isConnected) {
                    made.node.slot = memory.getLong(OTHER);
                    made.node.number = memory.getLong(OTHER + 8);
                    share.connection = made;
                }
                node.join();
                opened(at, node, NODE);
            } else if (status == NO_HUB) {
                failed = moveOn(share);
            }
        }
        serve(stack, tree.ref.reach, tree, null);
        if (failed != null) { throw Errors.thrown(failed); }
        if (status == NO_HUB || status == HUB_ORDER) { return status; }
        leave(at);
        if (isDone(status) && isConnected) { source.open(share.source); }
        return status;
    }

    /** A share for which there is no hub here goes to another engine: what that raises, which may not stand before what the step handed out. */
    private Throwable moveOn(Share share) {
        try {
            Engine next = spares.next(share);
            share.reach = new Reach();
            share.engine = next;
            return null;
        } catch (Throwable why) {
            return why;
        }
    }

    /** A subscriber came behind the end of a connection that was made by hand. */
    static final int ENDED = -1;

    /** Connects a share by hand: the connection that there is now. It is new if it is `made`. */
    Connection connect(Share share, Connection made) {
        if (history != null) { made.line = History.line(); }
        Stack stack = stacks.get();
        Throwable failed = null;
        int status;
        synchronized (this) {
            if (share.engine != this) { return null; }
            if (share.connection != null && share.connection.isOpen) { return share.connection; }
            meet(share);
            makeRoom(made, 1);
            long user = word(made, made.node);
            boolean isDone = false;
            try {
                step(stack, share.reach, CONNECT | (long) WISHES << 24 | (long) share.level << 32, share.hub, 0, 0, user, share.word, null);
                isDone = stack.status == DONE;
            } finally {
                if (!isDone) { takeBack(user); }
            }
            status = stack.status;
            if (isDone) {
                share.hub = memory.getLong(HUB);
                made.node.slot = memory.getLong(OTHER);
                made.node.number = memory.getLong(OTHER + 8);
                made.isOpen = true;
                made.ref.closedBy = DISCONNECT;
                made.ref.word = share.word;
                made.ref.hub = share.hub;
                share.connection = made;
                share.hasEnded = false;
                share.error = null;
            } else if (status == NO_HUB) {
                failed = moveOn(share);
            }
        }
        serve(stack, made.ref.reach, made, null);
        if (failed != null) { throw Errors.thrown(failed); }
        if (status == NO_HUB) { return null; }
        isDone(status);
        return made;
    }

    /** Ends a connection that was made by hand, and forgets how it ended. */
    void disconnect(Connection connection) {
        Share share = connection.share;
        Stack stack = stacks.get();
        synchronized (this) {
            if (share.connection != connection) { return; }
            if (!connection.isOpen) {
                share.forget();
                return;
            }
            meet(connection);
            step(stack, share.reach, DISCONNECT, share.hub, 0, 0, 0, share.word, null);
        }
        serve(stack, connection.ref.reach, connection, null);
    }

    /** Forgets how a connection that was made by hand ended. */
    synchronized void reset(Share share) { share.forget(); }

    // subscribing -----------------------------------------------------------------------------------------------------------------

    static void subscribe(Operator source, Observer<Object> observer) {
        Engine engine = source.engine();
        Collected.closeAll();
        Root root = new Root(engine, observer);
        if (engine.history != null) { root.line = History.line(); }
        observer.onSubscribe(root);
        if (root.isDisposed()) {
            source.isNotOpened();
            return;
        }
        try {
            source.open(Place.root(root));
        } catch (Throwable why) {
            root.dispose();
            throw why;
        }
        Reference.reachabilityFence(root);
    }

    /** Closes a tree that nobody could reach any more and that has no guard. */
    void close(Tree.Ref ref) {
        Stack stack = stacks.get();
        synchronized (this) {
            if (ref.owed == 0 || ref.closedBy < 0 || ref.isGuarded) { return; }
            if (ref.closedBy == DISPOSE) {
                step(stack, ref.reach, DISPOSE, 0, ref.slot, ref.number, 0, 0, null);
            } else {
                step(stack, ref.reach, DISCONNECT, ref.hub, 0, 0, 0, ref.word, null);
            }
        }
        serve(stack, ref.reach, null, null);
    }

    /** The history with its names; null where it is not whole. */
    String history() {
        if (history == null) { return null; }
        byte[] dump;
        Map<Long, String> names;
        synchronized (this) {
            dump = Native.dump(desk);
            names = history.names();
        }
        return dump == null ? null : History.with(names, new String(dump, StandardCharsets.US_ASCII));
    }

    /** What is open: nodes, resources that are held, resources that are still to be released, effects; then trees and values kept here. */
    long[] counts() {
        synchronized (this) {
            Native.totals(desk);
            return new long[] {memory.getLong(TOTALS), memory.getLong(TOTALS + 8), memory.getLong(TOTALS + 16), memory.getLong(TOTALS + 56), trees.used(), values.used()};
        }
    }
}
