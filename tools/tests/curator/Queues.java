package trials;

import static trials.Trials.*;

import java.util.List;
import java.util.concurrent.BlockingQueue;
import java.util.concurrent.Future;
import java.util.concurrent.LinkedBlockingQueue;
import java.util.concurrent.TimeUnit;
import org.apache.curator.framework.CuratorFramework;
import org.apache.curator.framework.recipes.queue.DistributedDelayQueue;
import org.apache.curator.framework.recipes.queue.DistributedIdQueue;
import org.apache.curator.framework.recipes.queue.DistributedPriorityQueue;
import org.apache.curator.framework.recipes.queue.DistributedQueue;
import org.apache.curator.framework.recipes.queue.QueueBuilder;
import org.apache.curator.framework.recipes.queue.QueueConsumer;
import org.apache.curator.framework.recipes.queue.QueueSerializer;
import org.apache.curator.framework.recipes.queue.SimpleDistributedQueue;
import org.apache.curator.framework.state.ConnectionState;

/** Queues. */
final class Queues {
    static final QueueSerializer<String> SPELLED = new QueueSerializer<>() {
        @Override public byte[] serialize(String item) { return bytes(item); }
        @Override public String deserialize(byte[] from) { return text(from); }
    };

    static QueueConsumer<String> into(BlockingQueue<String> to) {
        return new QueueConsumer<>() {
            @Override public void consumeMessage(String message) { to.add(message); }
            @Override public void stateChanged(CuratorFramework client, ConnectionState state) { }
        };
    }

    static void add() {
        trials.put("queue", it -> {
            BlockingQueue<String> seen = new LinkedBlockingQueue<>();
            DistributedQueue<String> queue =
                it.ends(QueueBuilder.builder(it.client(), into(seen), SPELLED, it.root)
                .buildQueue());
            queue.start();
            for (String each : List.of("a", "b", "c")) queue.put(each);
            for (String each : List.of("a", "b", "c")) same(seen.poll(5, TimeUnit.SECONDS), each,
                "in order");
        });
        trials.put("queue-locked", it -> {
            BlockingQueue<String> seen = new LinkedBlockingQueue<>();
            DistributedQueue<String> queue =
                it.ends(QueueBuilder.builder(it.client(), into(seen), SPELLED, it.root)
                .lockPath(it.root + "-lock").buildQueue());
            queue.start();
            queue.put("a");
            same(seen.poll(5, TimeUnit.SECONDS), "a", "taken");
        });
        trials.put("queue-of-ids", it -> {
            BlockingQueue<String> seen = new LinkedBlockingQueue<>();
            DistributedIdQueue<String> producer =
                it.ends(QueueBuilder.builder(it.client(), null, SPELLED, it.root).buildIdQueue());
            producer.start();
            producer.put("a", "1");
            producer.put("b", "2");
            same(producer.remove("1"), 1, "removed by its id");
            DistributedIdQueue<String> queue =
                it.ends(QueueBuilder.builder(it.client(), into(seen), SPELLED, it.root)
                .buildIdQueue());
            queue.start();
            same(seen.poll(5, TimeUnit.SECONDS), "b", "the other");
        });
        trials.put("queue-of-priorities", it -> {
            BlockingQueue<String> seen = new LinkedBlockingQueue<>();
            DistributedPriorityQueue<String> producer =
                it.ends(QueueBuilder.builder(it.client(), null, SPELLED, it.root)
                .buildPriorityQueue(0));
            producer.start();
            producer.put("late", 9);
            producer.put("early", 1);
            producer.flushPuts(5, TimeUnit.SECONDS);
            DistributedPriorityQueue<String> queue =
                it.ends(QueueBuilder.builder(it.client(), into(seen), SPELLED, it.root)
                .buildPriorityQueue(0));
            queue.start();
            same(seen.poll(5, TimeUnit.SECONDS), "early", "the first");
            same(seen.poll(5, TimeUnit.SECONDS), "late", "the second");
        });
        trials.put("queue-of-delays", it -> {
            BlockingQueue<String> seen = new LinkedBlockingQueue<>();
            DistributedDelayQueue<String> queue =
                it.ends(QueueBuilder.builder(it.client(), into(seen), SPELLED, it.root)
                .buildDelayQueue());
            queue.start();
            queue.put("a", System.currentTimeMillis() + 700);
            want(seen.poll(300, TimeUnit.MILLISECONDS) == null, "not yet");
            same(seen.poll(5, TimeUnit.SECONDS), "a", "then");
        });
        trials.put("queue-simple", it -> {
            SimpleDistributedQueue queue = new SimpleDistributedQueue(it.client(), it.root);
            Future<byte[]> taken = beside(() -> queue.poll(5, TimeUnit.SECONDS));
            Thread.sleep(200);
            queue.offer(bytes("a"));
            same(text(got(taken)), "a", "taken");
            queue.offer(bytes("b"));
            same(text(queue.peek()), "b", "seen");
            same(text(queue.take()), "b", "taken, too");
            want(queue.poll() == null, "it is empty");
        });
    }
}
