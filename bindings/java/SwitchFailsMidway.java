import io.reactivex.rxjava3.core.Observable;
import io.reactivex.rxjava3.subjects.PublishSubject;

/** One item goes two ways into a switchMap, and its first way fails it. */
public class SwitchFailsMidway {
    static int made, released;

    static void say(String what) { System.out.println(what); }

    /** The source, with a resource that is made for each subscription and released with it. */
    static Observable<Integer> using(String name, Observable<Integer> source) {
        return Observable.using(
            () -> { made++; say("made " + name); return name; },
            resource -> source,
            resource -> { released++; say("released " + resource); });
    }

    public static void main(String[] arguments) {
        var s = PublishSubject.<Integer>create();
        var h = s.share();
        var latest = Observable.merge(h, h.map(v -> -v)).switchMap(v -> v > 0
            ? using("first", Observable.error(new Exception("7")))
            : using("second", Observable.never()));
        var subscription = latest.subscribe(v -> {}, e -> say("told error " + e.getMessage()));
        s.onNext(1);
        subscription.dispose();
        say("disposed of: made " + made + ", released " + released);
    }
}
