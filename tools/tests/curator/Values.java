package trials;

import static trials.Trials.*;

import java.util.ArrayList;
import java.util.List;
import java.util.concurrent.BlockingQueue;
import java.util.concurrent.Future;
import java.util.concurrent.LinkedBlockingQueue;
import java.util.concurrent.TimeUnit;
import java.util.concurrent.atomic.AtomicInteger;
import org.apache.curator.framework.CuratorFramework;
import org.apache.curator.framework.recipes.atomic.CachedAtomicLong;
import org.apache.curator.framework.recipes.atomic.DistributedAtomicInteger;
import org.apache.curator.framework.recipes.atomic.DistributedAtomicLong;
import org.apache.curator.framework.recipes.atomic.DistributedAtomicValue;
import org.apache.curator.framework.recipes.atomic.PromotedToLock;
import org.apache.curator.framework.recipes.barriers.DistributedBarrier;
import org.apache.curator.framework.recipes.barriers.DistributedDoubleBarrier;
import org.apache.curator.framework.recipes.cache.CuratorCache;
import org.apache.curator.framework.recipes.cache.NodeCache;
import org.apache.curator.framework.recipes.cache.PathChildrenCache;
import org.apache.curator.framework.recipes.cache.TreeCache;
import org.apache.curator.framework.recipes.nodes.GroupMember;
import org.apache.curator.framework.recipes.nodes.PersistentNode;
import org.apache.curator.framework.recipes.nodes.PersistentTtlNode;
import org.apache.curator.framework.recipes.shared.SharedCount;
import org.apache.curator.framework.recipes.shared.SharedCountListener;
import org.apache.curator.framework.recipes.shared.SharedCountReader;
import org.apache.curator.framework.recipes.shared.SharedValue;
import org.apache.curator.framework.state.ConnectionState;
import org.apache.curator.retry.RetryNTimes;
import org.apache.zookeeper.CreateMode;

/** Barriers, counters, caches and nodes that stay. */
final class Values {
    static void add() {
        trials.put("barrier", it -> {
            DistributedBarrier one = new DistributedBarrier(it.client(), it.root), two =
                new DistributedBarrier(it.client(), it.root);
            one.setBarrier();
            Future<Boolean> waiting = beside(() -> two.waitOnBarrier(8, TimeUnit.SECONDS));
            Thread.sleep(200);
            want(!waiting.isDone(), "it waits");
            one.removeBarrier();
            want(got(waiting), "and goes on");
        });
        trials.put("double-barrier", it -> {
            List<Future<Boolean>> all = new ArrayList<>();
            for (int number = 0; number < 3; number++) {
                DistributedDoubleBarrier each =
                    new DistributedDoubleBarrier(it.client(), it.root, 3);
                all.add(beside(() -> each.enter(8, TimeUnit.SECONDS)
                    && each.leave(8, TimeUnit.SECONDS)));
            }
            for (Future<Boolean> each : all) want(got(each), "all enter and leave");
        });
        trials.put("count", it -> {
            SharedCount one = it.ends(new SharedCount(it.client(), it.root, 3)), two =
                it.ends(new SharedCount(it.client(), it.root, 3));
            BlockingQueue<Integer> seen = new LinkedBlockingQueue<>();
            two.addListener(new SharedCountListener() {
                @Override public void countHasChanged(SharedCountReader count,
                    int now) { seen.add(now); }
                @Override public void stateChanged(CuratorFramework client,
                    ConnectionState state) { }
            });
            one.start();
            two.start();
            same(one.getCount(), 3, "the first");
            want(one.trySetCount(one.getVersionedValue(), 5), "set");
            same(seen.poll(5, TimeUnit.SECONDS), 5, "told");
        });
        trials.put("value", it -> {
            SharedValue one = it.ends(new SharedValue(it.client(), it.root, bytes("a"))), two =
                it.ends(new SharedValue(it.client(), it.root, bytes("a")));
            one.start();
            two.start();
            var old = two.getVersionedValue();
            one.setValue(bytes("b"));
            want(!two.trySetValue(old, bytes("c")), "an old version");
            soon(() -> text(two.getValue()).equals("b"), "it is told");
        });
        trials.put("atomic-long", it -> {
            List<Future<Integer>> all = new ArrayList<>();
            for (int number = 0; number < 2; number++) {
                DistributedAtomicLong one =
                    new DistributedAtomicLong(it.client(), it.root, new RetryNTimes(100, 5));
                all.add(beside(() -> {
                    int done = 0;
                    for (int turn = 0; turn < 20; turn++) done += one.increment().succeeded() ? 1
                        : 0;
                    return done;
                }));
            }
            long sum = 0;
            for (Future<Integer> each : all) sum += got(each);
            same(new DistributedAtomicLong(it.client(), it.root, new RetryNTimes(1, 5)).get()
                .postValue(), sum, "the sum");
        });
        trials.put("atomic-integer", it -> {
            DistributedAtomicInteger one =
                new DistributedAtomicInteger(it.client(), it.root, new RetryNTimes(5, 5));
            one.forceSet(4);
            want(one.compareAndSet(4, 9).succeeded() && !one.compareAndSet(4, 7).succeeded(),
                "once");
            same(one.subtract(2).postValue(), 7, "less two");
        });
        trials.put("atomic-value", it -> {
            DistributedAtomicValue one =
                new DistributedAtomicValue(it.client(), it.root, new RetryNTimes(5, 5));
            want(one.initialize(bytes("a")) && !one.initialize(bytes("b")), "once");
            same(text(one.get().postValue()), "a", "the first");
        });
        trials.put("atomic-promoted", it -> {
            CuratorFramework c = it.client();
            PromotedToLock lock = PromotedToLock.builder().lockPath(it.root + "-lock")
                .timeout(5, TimeUnit.SECONDS).build();
            DistributedAtomicLong one =
                new DistributedAtomicLong(c, it.root, new RetryNTimes(0, 1), lock);
            same(one.add(7L).postValue(), 7L, "the sum");
        });
        trials.put("atomic-cached", it -> {
            DistributedAtomicLong one =
                new DistributedAtomicLong(it.client(), it.root, new RetryNTimes(5, 5));
            CachedAtomicLong cached = new CachedAtomicLong(one, 10);
            for (long number = 1; number <= 15; number++) same(cached.next().postValue(), number,
                "the next");
            same(one.get().postValue(), 20L, "taken by tens");
        });
        trials.put("path-cache", it -> {
            CuratorFramework c = it.client();
            PathChildrenCache cache = it.ends(new PathChildrenCache(c, it.root, true));
            cache.start(PathChildrenCache.StartMode.BUILD_INITIAL_CACHE);
            c.create().forPath(it.root + "/a", bytes("x"));
            soon(() -> cache.getCurrentData().size() == 1
                && text(cache.getCurrentData(it.root + "/a").getData()).equals("x"), "a child");
            c.setData().forPath(it.root + "/a", bytes("y"));
            soon(() -> text(cache.getCurrentData(it.root + "/a").getData()).equals("y"),
                "its data");
            c.delete().forPath(it.root + "/a");
            soon(() -> cache.getCurrentData().isEmpty(), "it is gone");
        });
        trials.put("node-cache", it -> {
            CuratorFramework c = it.client();
            NodeCache cache = it.ends(new NodeCache(c, it.root));
            cache.start(true);
            c.create().creatingParentsIfNeeded().forPath(it.root, bytes("x"));
            soon(() -> cache.getCurrentData() != null && text(cache.getCurrentData().getData())
                .equals("x"), "the node");
            c.delete().forPath(it.root);
            soon(() -> cache.getCurrentData() == null, "it is gone");
        });
        trials.put("tree-cache", it -> {
            CuratorFramework c = it.client();
            TreeCache cache = it.ends(new TreeCache(c, it.root));
            cache.start();
            c.create().creatingParentsIfNeeded().forPath(it.root + "/a/b", bytes("x"));
            soon(() -> cache.getCurrentData(it.root + "/a/b") != null, "a grandchild");
            c.delete().deletingChildrenIfNeeded().forPath(it.root + "/a");
            soon(() -> cache.getCurrentChildren(it.root) != null
                && cache.getCurrentChildren(it.root).isEmpty(), "it is gone");
        });
        trials.put("cache", it -> {
            CuratorFramework c = it.client();
            CuratorCache cache = it.ends(CuratorCache.build(c, it.root));
            AtomicInteger created = new AtomicInteger();
            cache.listenable().addListener((type, old, now) ->
                { if (type.name().equals("NODE_CREATED")) created.incrementAndGet(); });
            cache.start();
            c.create().creatingParentsIfNeeded().forPath(it.root + "/a/b", bytes("x"));
            soon(() -> cache.get(it.root + "/a/b").map(node -> text(node.getData()).equals("x"))
                .orElse(false), "a grandchild");
            soon(() -> created.get() == 3, "three are told");
            c.setData().forPath(it.root + "/a/b", bytes("y"));
            soon(() -> cache.get(it.root + "/a/b").map(node -> text(node.getData()).equals("y"))
                .orElse(false), "its data");
            c.delete().deletingChildrenIfNeeded().forPath(it.root + "/a");
            soon(() -> cache.size() == 1, "the rest is gone");
        });
        trials.put("cache-of-one-node", it -> {
            CuratorFramework c = it.client();
            c.create().creatingParentsIfNeeded().forPath(it.root + "/a", bytes("x"));
            CuratorCache cache = it.ends(CuratorCache.build(c, it.root,
                CuratorCache.Options.SINGLE_NODE_CACHE));
            cache.start();
            soon(() -> cache.get(it.root).isPresent(), "the node");
            c.setData().forPath(it.root, bytes("y"));
            soon(() -> text(cache.get(it.root).get().getData()).equals("y"), "its data");
            same(cache.size(), 1, "alone");
        });
        trials.put("persistent-node", it -> {
            CuratorFramework c = it.client(), other = it.client();
            PersistentNode node = it.ends(new PersistentNode(c, CreateMode.EPHEMERAL, false,
                it.root, bytes("x")));
            node.start();
            want(node.waitForInitialCreate(5, TimeUnit.SECONDS), "it is made");
            other.delete().forPath(it.root);
            soon(() -> other.checkExists().forPath(it.root) != null, "it is made again");
            node.setData(bytes("y"));
            soon(() -> text(other.getData().forPath(it.root)).equals("y"), "its data");
        });
        trials.put("persistent-ttl-node", it -> {
            CuratorFramework c = it.client();
            PersistentTtlNode node = it.ends(new PersistentTtlNode(c, it.root, 3000, bytes("x")));
            node.start();
            want(node.waitForInitialCreate(5, TimeUnit.SECONDS), "it is made");
            Thread.sleep(3500);
            want(c.checkExists().forPath(it.root) != null, "it is kept alive");
        });
        trials.put("group", it -> {
            GroupMember one = it.ends(new GroupMember(it.client(), it.root, "one", bytes("1"))),
                two = new GroupMember(it.client(), it.root, "two", bytes("2"));
            one.start();
            two.start();
            soon(() -> one.getCurrentMembers().size() == 2, "two members");
            two.close();
            soon(() -> one.getCurrentMembers().size() == 1, "one is left");
        });
    }
}
