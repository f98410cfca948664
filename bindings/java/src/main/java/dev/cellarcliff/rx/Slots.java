package dev.cellarcliff.rx;

import java.util.Arrays;

/** Objects by small numbers, each with a count of how often it is taken. Room is made beforehand, so that nothing else here can fail. */
final class Slots<T> {
    private static final Object[] NONE = {};
    private static final int[] NO_COUNTS = {};
    /** More room than this is given back where nothing is left. */
    private static final int KEPT = 128;

    private Object[] items = NONE;
    private int[] counts = NO_COUNTS;  // of a free number: the next one that is free
    private int free = -1, top, used;

    int used() { return used; }

    /** All numbers are less. */
    int top() { return top; }

    void makeRoom(int many) {
        if (items.length - used >= many) { return; }
        int length = Math.max(4, 2 * items.length);
        Object[] more = Arrays.copyOf(items, length);
        counts = Arrays.copyOf(counts, length);
        items = more;
    }

    private void clear() {
        items = NONE;
        counts = NO_COUNTS;
        top = 0;
        free = -1;
    }

    /** The number that the next one gets. */
    int next() { return free >= 0 ? free : top; }

    int put(T item, int count) {
        int at = next();
        if (at == top) { top++; } else { free = counts[at]; }
        items[at] = item;
        counts[at] = count;
        used++;
        return at;
    }

    @SuppressWarnings("unchecked")
    T get(int at) { return (T) items[at]; }

    /** Takes it once; behind the last time the number is free. */
    T take(int at) {
        T item = get(at);
        if (--counts[at] == 0) {
            items[at] = null;
            counts[at] = free;
            free = at;
            if (--used == 0 && items.length > KEPT) { clear(); }
        }
        return item;
    }
}
