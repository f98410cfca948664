package dev.cellarcliff.rx;

/**
 * Hears that nobody can reach a tree any more, while all of the tree is there yet. A weak reference would be told too late to release what the tree
 * holds: whatever knows the resource may know the tree, so the engine can hold neither. A guard is finalized with its tree, which is the
 * only one that has it; and is used again for another, so that few are made.
 */
final class Guard {
    private static final Object WAITING = new Object();
    /** Trees that are to be disposed of, the first of a chain. */
    private static Tree abandoned;

    static {
        start(Guard::disposeOfAbandoned, "cellarcliff: what nobody can reach");
        start(Guard::closeCollected, "cellarcliff: what was collected");
    }

    /** A step of a thread of this package's. */
    private interface Step {
        void take() throws Throwable;
    }

    private static void start(Step step, String name) {
        Thread thread = new Thread(() -> {
            while (true) {
                try {
                    step.take();
                } catch (Throwable why) {  // whatever is raised, others are disposed of
                    tell(why);
                }
            }
        }, name);
        thread.setDaemon(true);
        thread.start();
    }

    Tree tree;
    /** Of those that the engine keeps for other trees. */
    Guard next;

    /** Starts the threads that dispose of what nobody can reach. */
    static void prepare() { }

    @SuppressWarnings({"deprecation", "removal"})
    @Override protected void finalize() {
        Tree found = tree;
        if (found == null || !found.engine.isAbandoned(found)) { return; }
        synchronized (WAITING) {
            found.abandonedNext = abandoned;
            abandoned = found;
            WAITING.notify();
        }
    }

    private static void disposeOfAbandoned() throws InterruptedException {
        Tree found;
        synchronized (WAITING) {
            while (abandoned == null) { WAITING.wait(); }
            found = abandoned;
            abandoned = found.abandonedNext;
            found.abandonedNext = null;
        }
        found.engine.disposeOf(found);
    }

    private static void closeCollected() throws InterruptedException {
        ((Collected) Collected.QUEUE.remove()).close();
    }

    private static void tell(Throwable why) {
        try {
            Errors.hear(why);
        } catch (Throwable more) {
            // RxJava's hook raised it
        }
    }
}
