package dev.cellarcliff.rx;

import io.reactivex.rxjava3.exceptions.CompositeException;
import io.reactivex.rxjava3.plugins.RxJavaPlugins;

/** Where an exception goes. */
final class Errors {
    static {  // loads what it calls, which might not be possible where an exception says that there is no memory
        thrown(both(new RuntimeException(), new RuntimeException()));
    }

    private Errors() { }

    /** Loads this. */
    static void prepare() { }

    /** Those of which RxJava tells no observer. */
    @SuppressWarnings("removal")
    static boolean isFatal(Throwable why) { return why instanceof VirtualMachineError || why instanceof ThreadDeath || why instanceof LinkageError; }

    /** One that has no observer: to RxJava's hook, or, if it is fatal, to the caller. What is raised to the caller then. */
    static Throwable hear(Throwable raised, Throwable why) {
        if (isFatal(why) && raised == null) { return why; }
        try {
            RxJavaPlugins.onError(why);
        } catch (Throwable more) {
            return raised == null ? more : raised;
        }
        return raised;
    }

    /** One that an observer raised: to the caller, if it has none yet. */
    static Throwable raise(Throwable raised, Throwable why) { return raised == null ? why : hear(raised, why); }

    static void hear(Throwable why) {
        Throwable raised = hear(null, why);
        if (raised != null) { throw thrown(raised); }
    }

    static Throwable both(Throwable one, Throwable other) {
        return isFatal(one) ? one : isFatal(other) ? other : new CompositeException(one, other);
    }

    /** As a caller is thrown it. */
    static RuntimeException thrown(Throwable why) {
        if (why instanceof Error) { throw (Error) why; }
        return why instanceof RuntimeException ? (RuntimeException) why : new RuntimeException(why);
    }
}
