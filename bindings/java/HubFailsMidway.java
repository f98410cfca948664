import io.reactivex.rxjava3.core.Observable;
import io.reactivex.rxjava3.subjects.PublishSubject;

/** A shared observable fails on an item that is still on its way to a switchMap over it. */
public class HubFailsMidway {
    static int made, released;

    static void say(String what) { System.out.println(what); }

    /** A mapper that fails on 2. */
    static Observable<Integer> checked(int v) throws Exception {
        if (v == 2) throw new Exception("7");
        return Observable.just(v);
    }

    public static void main(String[] arguments) {
        var s = PublishSubject.<Integer>create();
        var h = Observable.using(() -> { say("made r" + ++made); return "r" + made; }, resource -> s,
            resource -> { released++; say("released " + resource); }).share();
        var g = h.flatMap(HubFailsMidway::checked).share();
        var a = g.subscribe(v -> say("a receives " + v), e -> say("a receives the error " + e.getMessage()));
        var b = h.switchMap(v -> g).subscribe(v -> {}, e -> say("b receives the error " + e.getMessage()));
        s.onNext(1);
        s.onNext(2);
        a.dispose();
        b.dispose();
        say("disposed of: made " + made + ", released " + released);
        say("is s subscribed to? " + s.hasObservers());
    }
}
