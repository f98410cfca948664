package dev.cellarcliff.rx;

import io.reactivex.rxjava3.disposables.Disposable;
import io.reactivex.rxjava3.disposables.DisposableContainer;
import java.util.ArrayList;
import java.util.LinkedHashMap;
import java.util.Map;
import java.util.Objects;

/** As RxJava's class, over the engine: what is in it is disposed of with it, once. */
public class CompositeDisposable implements Disposable, DisposableContainer {
    private final Held held = new Held(false);
    private final Map<Disposable, Held.Member> members = new LinkedHashMap<>();

    public CompositeDisposable() { }

    public CompositeDisposable(Disposable... all) {
        Objects.requireNonNull(all, "disposables is null");
        for (Disposable each : all) { add(Objects.requireNonNull(each, "A Disposable in the disposables array is null")); }
    }

    public CompositeDisposable(Iterable<? extends Disposable> all) {
        Objects.requireNonNull(all, "disposables is null");
        for (Disposable each : all) { add(Objects.requireNonNull(each, "A Disposable item in the disposables sequence is null")); }
    }

    @Override public boolean add(Disposable one) {
        Objects.requireNonNull(one, "disposable is null");
        boolean isIn;
        synchronized (this) {
            Held.Member member = members.containsKey(one) ? null : held.hold(one);
            if (member != null) { members.put(one, member); }
            isIn = members.containsKey(one);
        }
        if (!isIn) { one.dispose(); }
        held.disposeOfRest();
        return isIn;
    }

    public boolean addAll(Disposable... all) {
        Objects.requireNonNull(all, "disposables is null");
        boolean isIn = true;
        for (Disposable each : all) { isIn &= add(Objects.requireNonNull(each, "A Disposable in the disposables array is null")); }
        return isIn;
    }

    @Override public boolean remove(Disposable one) {
        if (!delete(one)) { return false; }
        one.dispose();
        return true;
    }

    @Override public synchronized boolean delete(Disposable one) {
        Held.Member member = members.remove(Objects.requireNonNull(one, "disposable is null"));
        if (member == null || held.isOver()) { return false; }
        member.keep();
        member.end();
        return true;
    }

    public void clear() {
        synchronized (this) {
            for (Held.Member each : new ArrayList<>(members.values())) { each.end(); }
            members.clear();
        }
        held.disposeOfRest();
    }

    public synchronized int size() { return held.isOver() ? 0 : members.size(); }

    @Override public void dispose() {
        held.end();
        synchronized (this) { members.clear(); }
        held.disposeOfRest();
    }

    @Override public boolean isDisposed() { return held.isOver(); }
}
