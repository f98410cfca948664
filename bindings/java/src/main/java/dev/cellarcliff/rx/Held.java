package dev.cellarcliff.rx;

import io.reactivex.rxjava3.disposables.Disposable;
import io.reactivex.rxjava3.exceptions.CompositeException;
import io.reactivex.rxjava3.subjects.PublishSubject;
import java.util.ArrayList;
import java.util.List;
import java.util.Queue;
import java.util.concurrent.ConcurrentLinkedQueue;

/** Disposables as the engine's resources, each of a source that goes on until it is let go: all of them as a flatMap has them, or the latest as a switchMap. */
final class Held {
    private final PublishSubject<Member> members = PublishSubject.create();
    private final Queue<Disposable> out = new ConcurrentLinkedQueue<>();
    private final Disposable all;
    private volatile boolean isOver;

    /** One that is held, or was. */
    final class Member {
        final Disposable one;
        private final PublishSubject<Object> until = PublishSubject.create();
        private volatile boolean isIn, isKept;

        private Member(Disposable one) { this.one = one; }

        private Disposable in() {
            isIn = true;
            return one;
        }

        /** Lets it go without disposing of it. */
        void keep() { isKept = true; }

        /** Lets it go. */
        void end() { until.onComplete(); }
    }

    Held(boolean isLatest) {
        io.reactivex.rxjava3.functions.Function<Member, io.reactivex.rxjava3.core.Observable<Object>> held = member ->
            Rx.using(member::in, it -> member.until, it -> { if (!member.isKept) { out.add(it); } });
        all = members.compose(isLatest ? Rx.switchMap(held) : Rx.flatMap(held)).subscribe();
    }

    /** Holds one: null where this is over. One call at a time; `disposeOfRest` has to follow, outside any lock. */
    Member hold(Disposable one) {
        Member member = new Member(one);
        members.onNext(member);
        return member.isIn ? member : null;
    }

    boolean isOver() { return isOver; }

    void end() {
        isOver = true;
        all.dispose();
    }

    /** Disposes of what was let go. */
    void disposeOfRest() {
        List<Throwable> failed = new ArrayList<>();
        for (Disposable one; (one = out.poll()) != null;) {
            try {
                one.dispose();
            } catch (Throwable why) {
                failed.add(why);
            }
        }
        if (failed.size() == 1) { throw Errors.thrown(failed.get(0)); }
        if (!failed.isEmpty()) { throw new CompositeException(failed); }
    }
}
