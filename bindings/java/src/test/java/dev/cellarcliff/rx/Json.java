package dev.cellarcliff.rx;

import java.util.ArrayList;
import java.util.Collection;
import java.util.LinkedHashMap;
import java.util.List;
import java.util.Map;
import java.util.stream.Collectors;

/** JSON, as far as the shared cases have it: maps, lists, strings, whole numbers, truth values, null. */
final class Json {
    private final String text;
    private int at;

    private Json(String text) { this.text = text; }

    static Object read(String text) {
        Json it = new Json(text);
        Object value = it.value();
        if (it.peek() != 0) { throw new IllegalArgumentException("more than one value: " + text); }
        return value;
    }

    /** As Python writes it. */
    static String written(Object value) {
        if (value instanceof String) { return '"' + (String) value + '"'; }
        if (value instanceof Collection) { return ((Collection<?>) value).stream().map(Json::written).collect(Collectors.joining(", ", "[", "]")); }
        return String.valueOf(value);
    }

    /** The next character that is no space, 0 at the end. */
    private char peek() {
        while (at < text.length() && Character.isWhitespace(text.charAt(at))) { at++; }
        return at < text.length() ? text.charAt(at) : 0;
    }

    private boolean takes(char wanted) {
        if (peek() != wanted) { return false; }
        at++;
        return true;
    }

    private Object value() {
        switch (peek()) {
            case '{': return map();
            case '[': return list();
            case '"': return string();
            default: return word();
        }
    }

    private Map<String, Object> map() {
        Map<String, Object> all = new LinkedHashMap<>();
        at++;
        while (!takes('}')) {
            takes(',');
            peek();
            String key = string();
            takes(':');
            all.put(key, value());
        }
        return all;
    }

    private List<Object> list() {
        List<Object> all = new ArrayList<>();
        at++;
        while (!takes(']')) {
            takes(',');
            all.add(value());
        }
        return all;
    }

    private String string() {
        StringBuilder all = new StringBuilder();
        for (at++; text.charAt(at) != '"'; at++) {
            if (text.charAt(at) == '\\') { at++; }
            all.append(text.charAt(at));
        }
        at++;
        return all.toString();
    }

    private Object word() {
        int from = at;
        while (at < text.length() && "-+.0123456789aeflnrstu".indexOf(text.charAt(at)) >= 0) { at++; }
        String word = text.substring(from, at);
        switch (word) {
            case "true": return true;
            case "false": return false;
            case "null": return null;
            default: return Long.valueOf(word);
        }
    }
}
