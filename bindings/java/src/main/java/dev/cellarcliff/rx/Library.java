package dev.cellarcliff.rx;

import java.io.IOException;
import java.io.InputStream;
import java.nio.file.Files;
import java.nio.file.Path;
import java.util.Locale;

/** Loads the native library: the file that the property {@code cellarcliff.native} names, else the one that the jar has for this machine. */
final class Library {
    private static final String NAME = "libcellarcliff-jvm.so", BY_HAND = "; build the file and name it: -Dcellarcliff.native=FILE";

    private Library() { }

    static void load() {
        String file = System.getProperty("cellarcliff.native");
        if (file == null) {
            unpack();
        } else {
            load(Path.of(file).toAbsolutePath(), "cellarcliff: the file that cellarcliff.native names cannot be loaded: ");
        }
    }

    private static String machine() {
        String system = System.getProperty("os.name").toLowerCase(Locale.ROOT), processor = System.getProperty("os.arch");
        return system + '-' + (processor.equals("amd64") ? "x86_64" : processor);
    }

    private static void unpack() {
        String at = "/META-INF/native/" + machine() + '/' + NAME;
        try (InputStream from = Library.class.getResourceAsStream(at)) {
            if (from == null) { throw new UnsatisfiedLinkError("cellarcliff: this jar has no native library for " + machine() + BY_HAND); }
            Path folder = Files.createTempDirectory("cellarcliff"), to = folder.resolve(NAME);
            try {
                Files.copy(from, to);
                load(to, "cellarcliff: the native library of this jar cannot be loaded (another C library, or java.io.tmpdir forbids running files): ");
            } finally {  // what is loaded stays, without its file
                Files.deleteIfExists(to);
                Files.deleteIfExists(folder);
            }
        } catch (IOException why) {
            throw (Error) new UnsatisfiedLinkError("cellarcliff: the native library of this jar was not unpacked into java.io.tmpdir, "
                + System.getProperty("java.io.tmpdir") + ": " + why + BY_HAND).initCause(why);
        }
    }

    private static void load(Path file, String otherwise) {
        try {
            System.load(file.toString());
        } catch (UnsatisfiedLinkError why) {
            throw (Error) new UnsatisfiedLinkError(otherwise + why.getMessage()).initCause(why);
        }
    }
}
