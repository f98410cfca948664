import io.reactivex.rxjava3.core.BackpressureStrategy;
import io.reactivex.rxjava3.core.Flowable;
import io.reactivex.rxjava3.core.FlowableEmitter;
import io.reactivex.rxjava3.plugins.RxJavaPlugins;
import io.reactivex.rxjava3.schedulers.Schedulers;
import java.io.ByteArrayOutputStream;
import java.io.EOFException;
import java.io.IOException;
import java.io.InputStream;
import java.io.BufferedInputStream;
import java.net.InetAddress;
import java.net.ServerSocket;
import java.net.Socket;
import java.nio.charset.StandardCharsets;
import java.util.HashMap;
import java.util.Map;
import java.util.concurrent.TimeUnit;

/** The relay with RxJava 3: the same operators, with a thread of Schedulers.io() for each socket that is read, and one for each client's writing. */
public class Relay {
    static final int QUEUE = 512;
    static final Map<String, Flowable<String>> topics = new HashMap<>();
    static long life = 600;

    /** Emits whole lines of a socket, and fails where it breaks off in the middle of one. */
    static void read(Socket socket, FlowableEmitter<String> to) {
        try {
            InputStream in = new BufferedInputStream(socket.getInputStream());
            var line = new ByteArrayOutputStream();
            for (int it; (it = in.read()) != -1; ) {
                if (it != '\n') {
                    line.write(it);
                    continue;
                }
                to.onNext(line.toString(StandardCharsets.UTF_8));
                line.reset();
            }
            if (line.size() > 0) to.tryOnError(new EOFException()); else to.onComplete();
        } catch (IOException why) {
            to.tryOnError(why);
        }
    }

    static Flowable<String> lines(Socket socket) {
        return Flowable.<String>create(to -> read(socket, to), BackpressureStrategy.MISSING).subscribeOn(Schedulers.io());
    }

    static Flowable<String> upstream(String host, int port) {
        return Flowable.using(() -> new Socket(host, port), Relay::lines, Socket::close).subscribeOn(Schedulers.io()).share();
    }

    static void write(Socket socket, String line) throws IOException {
        socket.getOutputStream().write((line + "\n").getBytes(StandardCharsets.UTF_8));
    }

    static void serve(Socket client) {
        Flowable.using(() -> client, socket -> lines(socket)
                .concatWith(Flowable.error(new EOFException()))
                .switchMap(name -> topics.containsKey(name)
                    ? topics.get(name).onBackpressureBuffer(QUEUE, () -> {}).startWithItem("= " + name)
                    : Flowable.just("? " + name), QUEUE)
                .takeUntil(Flowable.timer(life, TimeUnit.SECONDS)), Socket::close)
            .observeOn(Schedulers.io(), false, QUEUE)
            .subscribe(line -> write(client, line), why -> {});
    }

    public static void main(String[] words) throws IOException {
        RxJavaPlugins.setErrorHandler(why -> {}); // of what fails when nobody is there any more
        String address = null;
        for (int at = 0; at < words.length; at++) {
            String[] parts = words[at].split("[=:]");
            if (words[at].equals("--life")) life = Long.parseLong(words[++at]);
            else if (parts.length == 3) topics.put(parts[0], upstream(parts[1], Integer.parseInt(parts[2])));
            else address = words[at];
        }
        try (var server = new ServerSocket(Integer.parseInt(address.split(":")[1]), 128, InetAddress.getByName(address.split(":")[0]))) {
            System.out.println("listening " + address.split(":")[0] + ":" + server.getLocalPort());
            while (true) {
                Socket client = server.accept();
                client.setTcpNoDelay(true);
                serve(client);
            }
        }
    }
}
