package trials;

import java.nio.charset.StandardCharsets;
import java.util.ArrayList;
import java.util.Collections;
import java.util.List;
import java.util.Map;
import java.util.TreeMap;
import java.util.concurrent.Callable;
import java.util.concurrent.ExecutorService;
import java.util.concurrent.Executors;
import java.util.concurrent.Future;
import java.util.concurrent.TimeUnit;
import org.apache.curator.framework.CuratorFramework;
import org.apache.curator.framework.CuratorFrameworkFactory;
import org.apache.curator.retry.RetryNTimes;

/** Recipes of Apache Curator, each by its documentation. `java trials.Trials ADDRESS [NAME..]`. */
public final class Trials {
    interface Trial { void run(Scene it) throws Exception; }

    /** What a trial has: a path of its own, and clients that end with it. */
    static final class Scene implements AutoCloseable {
        final String root;
        final List<AutoCloseable> open = new ArrayList<>();

        Scene(String name) { root = "/trials/" + System.nanoTime() + "/" + name; }

        CuratorFramework client() throws Exception { return client(null); }

        CuratorFramework client(String namespace) throws Exception {
            CuratorFramework made = CuratorFrameworkFactory.builder().connectString(address)
                .namespace(namespace)
                .sessionTimeoutMs(10000).connectionTimeoutMs(5000)
                    .retryPolicy(new RetryNTimes(2, 100)).build();
            made.start();
            open.add(made);
            want(made.blockUntilConnected(5, TimeUnit.SECONDS), "it connects");
            return made;
        }

        <T extends AutoCloseable> T ends(T it) { open.add(it); return it; }

        @Override public void close() throws Exception {
            Collections.reverse(open);
            for (AutoCloseable it : open) {
                try {
                    it.close();
                } catch (IllegalStateException already) { /* it was closed by its trial */ }
            }
        }
    }

    static String address;
    static final Map<String, Trial> trials = new TreeMap<>();
    static final ExecutorService others = Executors.newCachedThreadPool(work -> {
        Thread thread = new Thread(work);
        thread.setDaemon(true);
        return thread;
    });

    static void want(boolean holds, String what) {
        if (!holds) throw new AssertionError(what);
    }

    static void same(Object got, Object wanted, String what) {
        want(wanted.equals(got), what + ": " + got + ", not " + wanted);
    }

    /** Waits until it holds, for some seconds. */
    static void soon(Callable<Boolean> holds, String what) throws Exception {
        for (int turn = 0; turn < 400; turn++) {
            if (holds.call()) return;
            Thread.sleep(20);
        }
        want(false, what);
    }

    static <T> Future<T> beside(Callable<T> work) { return others.submit(work); }

    static <T> T got(Future<T> work) throws Exception { return work.get(10, TimeUnit.SECONDS); }

    static byte[] bytes(String text) { return text.getBytes(StandardCharsets.UTF_8); }

    static String text(byte[] bytes) { return new String(bytes, StandardCharsets.UTF_8); }

    static String failure(String name, Trial trial) {
        try (Scene scene = new Scene(name)) {
            Future<Object> ran = beside(() -> { trial.run(scene); return null; });
            try {
                ran.get(25, TimeUnit.SECONDS);
                return null;
            } catch (java.util.concurrent.ExecutionException failed) {
                return String.valueOf(failed.getCause());
            } catch (java.util.concurrent.TimeoutException late) {
                ran.cancel(true);
                return "no end in 25 seconds";
            }
        } catch (Exception failed) {
            return "its end: " + failed;
        }
    }

    public static void main(String[] words) throws Exception {
        address = words[0];
        Nodes.add();
        Watches.add();
        Locks.add();
        Values.add();
        Queues.add();
        List<String> names = words.length > 1 ? List.of(words).subList(1, words.length)
            : new ArrayList<>(trials.keySet());
        ExecutorService some = Executors.newFixedThreadPool(8);
        List<Future<String>> all = new ArrayList<>();
        for (String name : names) all.add(some.submit(() -> failure(name, trials.get(name))));
        int passed = 0;
        for (int at = 0; at < names.size(); at++) {
            String failed = all.get(at).get();
            passed += failed == null ? 1 : 0;
            System.out.println(failed == null ? "ok " + names.get(at)
                : "FAILED " + names.get(at) + ": " + failed);
        }
        System.out.println(passed + " of " + names.size());
        System.exit(0);
    }
}
