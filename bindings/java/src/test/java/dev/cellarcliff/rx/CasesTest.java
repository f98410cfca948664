package dev.cellarcliff.rx;

import static dev.cellarcliff.rx.Tests.same;

import io.reactivex.rxjava3.core.Observable;
import io.reactivex.rxjava3.core.ObservableEmitter;
import io.reactivex.rxjava3.core.Observer;
import io.reactivex.rxjava3.disposables.CompositeDisposable;
import io.reactivex.rxjava3.disposables.Disposable;
import io.reactivex.rxjava3.functions.Function;
import io.reactivex.rxjava3.functions.Supplier;
import io.reactivex.rxjava3.observables.ConnectableObservable;
import io.reactivex.rxjava3.schedulers.TestScheduler;
import io.reactivex.rxjava3.subjects.AsyncSubject;
import io.reactivex.rxjava3.subjects.BehaviorSubject;
import io.reactivex.rxjava3.subjects.PublishSubject;
import io.reactivex.rxjava3.subjects.ReplaySubject;
import io.reactivex.rxjava3.subjects.Subject;
import java.io.IOException;
import java.nio.file.DirectoryStream;
import java.nio.file.Files;
import java.nio.file.Path;
import java.util.ArrayList;
import java.util.Collections;
import java.util.HashMap;
import java.util.List;
import java.util.Map;
import java.util.NoSuchElementException;
import java.util.TreeMap;
import java.util.concurrent.TimeUnit;

/**
 * The cases that all languages share, bindings/cases: each whose operators are the engine's here, or are RxJava's own and stand beside one of these, tells,
 * makes and releases what stands there. The property cellarcliff.cases names the folder.
 */
@SuppressWarnings("unchecked")
class CasesTest {
    /**
     * So many are told as RxJava's own operators tell them: a takeUntil subscribes to its notifier first, and ends as that ends; nothing is put off, and
     * no end of a share is remembered; a resource is released before the end is told.
     */
    private static final int WITH_THEIRS = 22;

    /** An operator or source that RxJava has not by this name, or that is not tried here. */
    private static final class Lacks extends RuntimeException {
        private static final long serialVersionUID = 1;

        Lacks(String name) { super(name); }
    }

    /** What is told where both peers make anew a connection that stays here: the row exchange-keeps-the-share. */
    private static final Map<String, String> KEPT = Map.of(
        "share: in an exchange",
        "[200 b made 1, 210 a made 1, 220 x next 1, 240 x next 2, 250 a released 1, 260 x completed, 260 b released 1]",
        "flat_map_latest: each of what is shared",
        "[200 a made 1, 210 d made 1, 215 x next 1, 225 x next 2, 235 d released 1, 250 x completed, 250 a released 1]");

    private final Map<String, Integer> lacking = new TreeMap<>();
    private final List<String> asTheirs = new ArrayList<>(), wrong = new ArrayList<>();
    private int passed;

    void cases_tell_what_stands_there_or_what_RxJava_tells() throws IOException {
        Path folder = Path.of(System.getProperty("cellarcliff.cases"));
        Map<String, Object> words = (Map<String, Object>) Json.read(Files.readString(folder.resolve("words.json")));
        try (DirectoryStream<Path> files = Files.newDirectoryStream(folder, "*.json")) {
            for (Path file : files) {
                Object all = Json.read(Files.readString(file));
                if (all instanceof List) { ((List<Map<String, Object>>) all).forEach(each -> compare(each, words)); }
            }
        }
        int left = lacking.values().stream().mapToInt(it -> it).sum();
        System.out.println(passed + " shared cases as they stand, " + asTheirs.size() + " as RxJava's own tells them, " + KEPT.size() + " whose connection stays; "
            + left + " need one of " + lacking.size() + " operators and sources that are RxJava's own");
        Tests.strays.clear();  // errors of RxJava's sources that nobody hears
        same(List.of(), wrong);
        same(WITH_THEIRS, asTheirs.size());
    }

    private void compare(Map<String, Object> given, Map<String, Object> words) {
        String name = (String) given.get("name"), told;
        try {
            told = told(given, words);
        } catch (Lacks why) {
            lacking.merge(why.getMessage(), 1, Integer::sum);
            return;
        }
        if (told.equals(given.get("log").toString())) {
            passed++;
        } else if (told.equals(toldByTheirs(given, words))) {
            asTheirs.add(name);
        } else if (!told.equals(KEPT.get(name))) {
            wrong.add(name + ": " + told);
        }
    }

    private static String told(Map<String, Object> given, Map<String, Object> words) { return inOrder(new Run(given, words).told()).toString(); }

    private static String toldByTheirs(Map<String, Object> given, Map<String, Object> words) {
        Hooks.uninstall();
        try {
            return told(given, words);
        } finally {
            Hooks.install();
        }
    }

    /** At one time, what is released before the next `made` is a set: it stands behind what is told, by name. */
    private static List<String> inOrder(List<String> told) {
        List<String> ordered = new ArrayList<>(), released = new ArrayList<>();
        String time = "";
        for (String each : told) {
            String[] words = each.split(" ");
            if (!words[0].equals(time) || words[2].equals("made")) {
                Collections.sort(released);
                ordered.addAll(released);
                released.clear();
            }
            time = words[0];
            (words[2].equals("released") ? released : ordered).add(each);
        }
        Collections.sort(released);
        ordered.addAll(released);
        return ordered;
    }

    /** One case, in an engine of its own: what it made, and what was told. */
    private static final class Run {
        private final Map<String, Object> given;
        private final Map<String, Object> sources, operators;
        private final List<String> told = new ArrayList<>();
        private final Map<String, List<Object>> when;
        private final TestScheduler clock = new TestScheduler();
        private final Map<String, Observable<Object>> lets = new HashMap<>();
        private final Map<String, Subject<Object>> subjects = new HashMap<>();
        private final Map<String, Integer> counts = new HashMap<>();
        private final Map<String, CompositeDisposable> disposables = new HashMap<>();
        private final Observable<Object> pipe;
        /** What was found lacking, of what is made as it is subscribed to. */
        private Lacks lacking;

        Run(Map<String, Object> given, Map<String, Object> words) {
            this.given = given;
            sources = (Map<String, Object>) words.get("sources");
            operators = (Map<String, Object>) words.get("operators");
            when = new HashMap<>((Map<String, List<Object>>) given.getOrDefault("when", Map.of()));
            Engine.renew();
            ((Map<String, Object>) given.get("sources")).forEach((name, made) -> {
                Observable<Object> fed = fed(name, made);
                lets.put(name, using(name, () -> fed));
            });
            for (Object each : (List<Object>) given.get("do")) {
                String[] parts = ((String) each).split(" ", 2);
                clock.scheduleDirect(() -> act(parts[1]), Long.parseLong(parts[0]), TimeUnit.MILLISECONDS);
            }
            pipe = build(given.get("pipe"));
        }

        List<String> told() {
            clock.advanceTimeTo(1000, TimeUnit.MILLISECONDS);
            if (lacking != null) { throw lacking; }
            return told;
        }

        private void note(String who, String what, Object... value) {
            String text = who + ' ' + what + (value.length == 0 ? "" : ' ' + (what.equals("error") || what.equals("called") ? (String) value[0] : Json.written(value[0])));
            told.add(clock.now(TimeUnit.MILLISECONDS) + " " + text);
            List<Object> then = when.remove(text);
            if (then != null) { then.forEach(each -> act((String) each)); }
        }

        private static String message(Throwable why) {
            return why instanceof NoSuchElementException ? "no elements" : why instanceof IndexOutOfBoundsException ? "out of range"
                : why instanceof IllegalArgumentException ? "more than one" : why.getMessage();
        }

        private void act(String command) {
            String[] parts = command.split(" ", 3);
            String who = parts[0], value = parts.length > 2 ? parts[2] : null;
            switch (parts[1]) {
                case "subscribe":
                    subscribe(who, value == null ? pipe : build(Json.read(value)));
                    break;
                case "connect":
                    CompositeDisposable whole = new CompositeDisposable();
                    disposables.put(who, whole);
                    ((ConnectableObservable<Object>) build(who)).connect(whole::add);
                    break;
                case "dispose":
                case "disconnect":
                    disposables.get(who).dispose();
                    break;
                case "next":
                    subjects.get(who).onNext(Json.read(value));
                    break;
                case "error":
                    subjects.get(who).onError(new Exception(value));
                    break;
                default:
                    subjects.get(who).onComplete();
            }
        }

        private void subscribe(String who, Observable<Object> source) {
            CompositeDisposable whole = new CompositeDisposable();
            disposables.put(who, whole);
            source.subscribe(new Observer<Object>() {
                @Override public void onSubscribe(Disposable it) { whole.add(it); }
                @Override public void onNext(Object it) { note(who, "next", it); }
                @Override public void onError(Throwable why) { note(who, "error", message(why)); }
                @Override public void onComplete() { note(who, "completed"); }
            });
        }

        // sources -------------------------------------------------------------------------------------------------------------------

        private Observable<Object> fed(String name, Object made) {
            if (made instanceof List) { return Observable.create(emitter -> feed(emitter, (List<Object>) made)); }
            String[] parts = ((String) made).split(" ");
            Subject<Object> subject;
            switch (parts[0]) {
                case "hot": subject = PublishSubject.create(); break;
                case "behavior": subject = BehaviorSubject.createDefault(Json.read(parts[1])); break;
                case "replay": subject = ReplaySubject.createWithSize(Integer.parseInt(parts[1])); break;
                default: subject = AsyncSubject.create();
            }
            subjects.put(name, subject);
            return subject;
        }

        private void feed(ObservableEmitter<Object> emitter, List<Object> all) {
            CompositeDisposable timers = new CompositeDisposable();
            emitter.setDisposable(timers);
            for (Object each : all) {
                String[] parts = ((String) each).split(" ", 2);
                timers.add(clock.scheduleDirect(() -> tell(emitter, parts[1]), Long.parseLong(parts[0]), TimeUnit.MILLISECONDS));
            }
        }

        private static void tell(ObservableEmitter<Object> emitter, String what) {
            String[] parts = what.split(" ", 2);
            switch (parts[0]) {
                case "next": emitter.onNext(Json.read(parts[1])); break;
                case "error": emitter.onError(new Exception(parts[1])); break;
                default: emitter.onComplete();
            }
        }

        private int made(String name) {
            int number = counts.merge(name, 1, Integer::sum);
            note(name, "made", number);
            return number;
        }

        private Observable<Object> using(String name, Supplier<Observable<Object>> factory) {
            return Observable.using(() -> made(name), it -> factory.get(), it -> note(name, "released", it));
        }

        private Observable<Object> build(Object it) {
            if (it instanceof String) {
                String name = (String) it;
                if (!lets.containsKey(name)) { lets.put(name, build(((Map<String, Object>) given.get("let")).get(name))); }
                return lets.get(name);
            }
            List<Object> all = (List<Object>) it;
            Object first = all.get(0);
            if (first instanceof String && sources.containsKey(first)) { return source((String) first, new Words(all)); }
            Observable<Object> source = build(first);
            for (Object each : all.subList(1, all.size())) {
                List<Object> words = (List<Object>) each;
                source = through(source, (String) words.get(0), new Words(words));
            }
            return source;
        }

        private Observable<Object> source(String name, Words words) {
            switch (name) {
                case "of": return Observable.fromIterable(words.all());
                case "range": return Observable.rangeLong(words.number(0), words.number(1)).cast(Object.class);
                case "empty": return Observable.empty();
                case "never": return Observable.never();
                case "throw": return Observable.error(new Exception((String) words.get(0)));
                case "create": return Observable.create(emitter -> {
                    int number = made((String) words.get(0));
                    emitter.setCancellable(() -> note((String) words.get(0), "released", number));
                    for (Object each : words.all().subList(1, words.all().size())) { tell(emitter, (String) each); }
                });
                case "using": return using((String) words.get(0), factory(words.get(1)));
                case "defer": return Observable.defer(factory(words.get(0)));
                case "timer":
                    return (words.all().size() < 2 ? Observable.timer(words.number(0), TimeUnit.MILLISECONDS, clock)
                        : Observable.interval(words.number(0), words.number(1), TimeUnit.MILLISECONDS, clock)).cast(Object.class);
                case "interval": return Observable.interval(words.number(0), TimeUnit.MILLISECONDS, clock).cast(Object.class);
                case "merge": return Observable.merge(words.observables());
                case "concat": return Observable.concat(words.observables());
                default: throw lacking = new Lacks(name);
            }
        }

        // operators -----------------------------------------------------------------------------------------------------------------

        private Observable<Object> through(Observable<Object> source, String name, Words words) {
            switch (name) {
                case "map": return source.map(function(words.get(0)));
                case "filter":
                    Function<Object, Object> isWanted = function(words.get(0));
                    return source.filter(it -> !List.of(false, 0L).contains(isWanted.apply(it)));
                case "project": return source.map(inner(words.get(0)));
                case "take": return source.take(words.number(0));
                case "to_list": return source.toList().toObservable().cast(Object.class);
                case "merge": return Observable.merge(words.observables(source));
                case "concat": return Observable.concat(words.observables(source));
                case "merge_all": return words.all().isEmpty() ? source.flatMap(it -> (Observable<Object>) it) : source.flatMap(it -> (Observable<Object>) it, (int) words.number(0));
                case "flat_map": return words.all().size() < 2 ? source.flatMap(inner(words.get(0))) : source.flatMap(inner(words.get(0)), (int) words.number(1));
                case "concat_map": return source.concatMap(inner(words.get(0)));
                case "flat_map_latest": return source.switchMap(inner(words.get(0)));
                case "switch_latest": return source.switchMap(it -> (Observable<Object>) it);
                case "take_until": return source.takeUntil(build(words.get(0)));
                case "finally_action": return source.doFinally(() -> note((String) words.get(0), "released", counts.merge((String) words.get(0), 1, Integer::sum)));
                case "publish": return source.publish();
                case "ref_count": return ((ConnectableObservable<Object>) source).refCount();
                case "share": return source.share();
                default: throw lacking = new Lacks(name);
            }
        }

        /** What an operator is given. */
        private final class Words {
            private final List<Object> given;

            Words(List<Object> given) { this.given = given.subList(1, given.size()); }

            List<Object> all() { return given; }

            Object get(int i) { return given.get(i); }

            long number(int i) { return (Long) given.get(i); }

            List<Observable<Object>> observables(Observable<?>... before) {
                List<Observable<Object>> all = new ArrayList<>();
                for (Observable<?> each : before) { all.add((Observable<Object>) each); }
                for (Object each : given) { all.add(build(each)); }
                return all;
            }
        }

        private Supplier<Observable<Object>> factory(Object word) {
            return () -> {
                if ("fail".equals(word)) { throw new Exception("failed"); }
                return build(word);
            };
        }

        /** A function from an item to an observable: always the same, or by the item; `self` is the item itself. */
        private Function<Object, Observable<Object>> inner(Object word) {
            return value -> {
                if (value instanceof Observable) { lets.put("self", (Observable<Object>) value); }
                Map<String, Object> by = word instanceof Map ? (Map<String, Object>) word : null;
                return factory(by == null ? word : by.getOrDefault(String.valueOf(value), by.get("else"))).get();
            };
        }
    }

    /** A function on items by its name, which may fail at an item. */
    private static Function<Object, Object> function(Object text) {
        String[] parts = ((String) text).split(" or fail at ");
        String[] words = parts[0].split(" (?=\\d)");
        long number = words.length > 1 ? Long.parseLong(words[1]) : 0;
        return value -> {
            if (words[0].equals("fail") || parts.length > 1 && value.equals(Long.valueOf(parts[1]))) { throw new Exception("failed"); }
            switch (words[0]) {
                case "identity": return value;
                case "add": return (Long) value + number;
                case "times": return (Long) value * number;
                case "mod": return (Long) value % number;
                case "is": return value.equals(number);
                case "below": return (Long) value < number;
                case "is even": return (Long) value % 2 == 0;
                default: throw new Lacks(words[0]);
            }
        };
    }
}
