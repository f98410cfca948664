package dev.cellarcliff.rx;

import java.lang.ref.WeakReference;

/**
 * What is open below one subscription, or below one connection of a share. Whatever can tell it something holds it; the engine does not, so
 * that what nobody can reach is collected. What holds resources, or subscribes to a share, is disposed of then: it has a guard.
 */
abstract class Tree {
    final Engine engine;
    /** Where it was subscribed to, if the history is kept. */
    String line;
    final Ref ref;
    final Slots<Thing> things = new Slots<>();
    /** If something was held here: made beforehand, since an end may not fail. */
    Releases releases;
    /** How many resources are held here that are released before the end, and behind it. */
    int eager, late;
    /** If something was held here, or subscribes to a share. */
    Guard guard;
    Tree abandonedNext, foundNext;
    // the list of what the engine holds
    boolean isPinned;
    Tree pinnedBefore, pinnedAfter;

    Tree(Engine engine, Reach reach) {
        this.engine = engine;
        this.ref = new Ref(this, reach);
    }

    /** The share whose connection this is, if it is one. */
    Share shares() { return null; }

    /** What the engine keeps of a tree. */
    static final class Ref extends WeakReference<Tree> implements Collected {
        private final Engine engine;
        final Reach reach;
        int index = -1;
        /** How many of its words are still to be told for the last time. */
        int owed;
        /** How it is closed once it is collected: nothing, a root, or a connection that was made by hand. */
        int closedBy = -1;
        long slot, number, word, hub;
        /** Its guard says when nobody can reach it; and then it is here, until the last of it is told. */
        boolean isGuarded;
        private Tree found;

        Ref(Tree tree, Reach reach) {
            super(tree, QUEUE);
            this.engine = tree.engine;
            this.reach = reach;
        }

        Tree tree() { return found == null ? get() : found; }

        @Override public void close() { engine.close(this); }

        /** All of it is told. */
        void lose() { found = null; }

        /** It is there again, if it was collected. */
        boolean find(Tree tree) {
            if (tree() != null) { return false; }
            found = tree;
            return true;
        }
    }

    /**
     * The releases around an end or a disposal, in RxJava's order: what is eager comes before it, from the source on at an end, towards
     * the source at a disposal; what is late comes behind it, the other way round.
     */
    static final class Releases {
        private boolean isEnd;
        /** What names the tree to the native library, which may note its releases: at a disposal. */
        long noted;
        /** What an eager release raised before an end. */
        Throwable failed;
        private Tag eager, first, last;

        Releases around(boolean isEnd, long noted) {
            this.isEnd = isEnd;
            this.noted = noted;
            return this;
        }

        void add(Tag tag) {
            if (!tag.isEager) {
                if (isEnd || first == null) {
                    tag.next = first;
                    first = tag;
                } else {
                    last.next = tag;
                }
                if (!isEnd) { last = tag; }
            } else if (!isEnd) {
                tag.next = eager;
                eager = tag;
            } else {
                try {
                    tag.release();
                } catch (Throwable why) {
                    failed = failed == null ? why : Errors.both(failed, why);
                }
            }
        }

        Throwable releaseEager(Throwable raised) {
            Tag all = eager;
            eager = null;
            return release(all, raised);
        }

        Throwable releaseLate(Throwable raised) {
            Tag all = first;
            first = last = null;
            return release(all, raised);
        }

        private static Throwable release(Tag all, Throwable raised) {
            for (Tag tag = all; tag != null; tag = tag.next) {
                try {
                    tag.release();
                } catch (Throwable why) {
                    raised = Errors.hear(raised, why);
                }
            }
            return raised;
        }
    }
}
