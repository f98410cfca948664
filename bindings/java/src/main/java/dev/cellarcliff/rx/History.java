package dev.cellarcliff.rx;

import java.io.IOException;
import java.lang.reflect.Proxy;
import java.nio.file.Files;
import java.nio.file.Path;
import java.nio.file.StandardCopyOption;
import java.util.Map;
import java.util.NavigableMap;
import java.util.StringJoiner;
import java.util.TreeMap;
import java.util.regex.Matcher;
import java.util.regex.Pattern;

/**
 * What the engine writes down: what was opened, made, told and released, and where in the program it was subscribed to. `rxbook audit` judges
 * it, `rxbook picture` draws it.
 */
public final class History {
    /** So many events are kept; a program that has more has no whole history. */
    private static final int MOST = 1 << 22;
    private static boolean isKept;
    private static final Pattern EVENT = Pattern.compile("\\[[^\\[\\]]+\\]");
    /** The place of another event stands behind a word; behind "error" it is a code. */
    private static final Pattern PLACE = Pattern.compile("(\"(?!error)\\w+\",)(\\d+)");

    /** Where what is made was subscribed to, by the place of its event. Under the engine's lock. */
    private final Map<Long, String> names = new TreeMap<>();

    History() { }

    /** From now on the history is kept, of what is subscribed to from now on. Each subscription is dearer then, by a walk of its stack. */
    public static synchronized void keep() {
        if (isKept) { return; }
        isKept = true;
        Engine.renew(MOST, new History());
    }

    /** The history since it is kept: an object with `dump` and `names`. */
    public static String text() {
        String text = Engine.current().history();
        if (text == null) { throw new IllegalStateException("cellarcliff: there is no whole history: History.keep() was not called, or more than " + MOST + " events came"); }
        return text;
    }

    /** Writes the history to a file, which has it whole or as it was. */
    public static void write(Path file) throws IOException {
        Path whole = file.resolveSibling(file.getFileName() + ".part");
        Files.writeString(whole, text() + '\n');
        Files.move(whole, file, StandardCopyOption.REPLACE_EXISTING);
    }

    /** As the property says: keeps the history, and writes it to that file on the signal USR1 and at the end. */
    static void keepAsAsked() {
        String file = System.getProperty("cellarcliff.history");
        if (file == null || isKept) { return; }
        keep();
        onSignal(() -> tryToWrite(file));
        Runtime.getRuntime().addShutdownHook(new Thread(() -> tryToWrite(file), "cellarcliff: history"));
    }

    /** By reflection, since the JDK promises no signals. */
    private static void onSignal(Runnable act) {
        try {
            Class<?> signal = Class.forName("sun.misc.Signal"), handler = Class.forName("sun.misc.SignalHandler");
            Object handles = Proxy.newProxyInstance(handler.getClassLoader(), new Class<?>[] {handler}, (it, method, given) -> {
                act.run();
                return null;
            });
            signal.getMethod("handle", signal, handler).invoke(null, signal.getConstructor(String.class).newInstance("USR1"), handles);
        } catch (ReflectiveOperationException | RuntimeException why) {
            System.err.println("cellarcliff: the signal USR1 writes no history here: " + why);
        }
    }

    private static void tryToWrite(String file) {
        try {
            write(Path.of(file));
        } catch (IOException | RuntimeException why) {
            System.err.println("cellarcliff: the history was not written to " + file + ": " + why);
        }
    }

    /** The innermost line of the program that has called. */
    static String line() {
        return StackWalker.getInstance().walk(frames -> frames.filter(History::isProgram).findFirst().map(it -> it.getFileName() + ':' + it.getLineNumber()).orElse("no line"));
    }

    private static boolean isProgram(StackWalker.StackFrame frame) {
        String name = frame.getClassName();
        return !name.startsWith("io.reactivex.rxjava3.") && !name.startsWith("java.") && (!name.startsWith("dev.cellarcliff.rx.") || name.endsWith("Test"));
    }

    void name(long number, String what) { names.put(number, what); }

    /** Under the engine's lock. */
    Map<Long, String> names() { return new TreeMap<>(names); }

    /**
     * The dump with the names of what it has, without the hubs that nothing in it names, and the places counted anew: at its first share an
     * engine makes all that it has, 1,024, each of them an event. The audit judges both alike: no event is forced there, and no rule looks at these.
     */
    static String with(Map<Long, String> names, String dump) {
        NavigableMap<Long, Long> unused = unusedHubs(dump);
        StringJoiner events = new StringJoiner(",", "{\"dump\":[", "],\"names\":{"), named = new StringJoiner(",", "", "}}");
        long place = 0;
        for (Matcher it = EVENT.matcher(dump); it.find(); place++) {
            if (unused.containsKey(place)) { continue; }
            events.add(PLACE.matcher(it.group()).replaceAll(found -> found.group(1) + anew(Long.parseLong(found.group(2)), unused)));
        }
        names.forEach((at, name) -> named.add("\"" + anew(at, unused) + "\":\"" + name.replaceAll("[\"\\\\\\p{Cntrl}]", "?") + '"'));
        return events.toString() + named;
    }

    /** The places of hubs that no event names, each with how many there are up to it. */
    private static NavigableMap<Long, Long> unusedHubs(String dump) {
        NavigableMap<Long, Long> found = new TreeMap<>();
        long place = 0, many = 0;
        for (Matcher it = EVENT.matcher(dump); it.find(); place++) {
            if (it.group().startsWith("[\"hub\"")) { found.put(place, 0L); }
        }
        for (Matcher it = PLACE.matcher(dump); it.find();) { found.remove(Long.valueOf(it.group(2))); }
        for (Map.Entry<Long, Long> each : found.entrySet()) { each.setValue(++many); }
        return found;
    }

    private static long anew(long place, NavigableMap<Long, Long> unused) {
        Map.Entry<Long, Long> last = unused.floorEntry(place);
        return last == null ? place : place - last.getValue();
    }
}
