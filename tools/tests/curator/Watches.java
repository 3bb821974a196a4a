package trials;

import static trials.Trials.*;

import java.util.ArrayList;
import java.util.Collections;
import java.util.List;
import java.util.concurrent.BlockingQueue;
import java.util.concurrent.CountDownLatch;
import java.util.concurrent.LinkedBlockingQueue;
import java.util.concurrent.TimeUnit;
import org.apache.curator.framework.CuratorFramework;
import org.apache.curator.framework.recipes.watch.PersistentWatcher;
import org.apache.zookeeper.AddWatchMode;
import org.apache.zookeeper.WatchedEvent;
import org.apache.zookeeper.Watcher;

/** Watches, set once or to stay. */
final class Watches {
    static String shown(WatchedEvent event) { return event.getType() + " " + event.getPath(); }

    static void add() {
        trials.put("watch-once", it -> {
            CuratorFramework c = it.client();
            BlockingQueue<String> seen = new LinkedBlockingQueue<>();
            c.create().creatingParentsIfNeeded().forPath(it.root);
            c.getData().usingWatcher((Watcher) event -> seen.add(shown(event))).forPath(it.root);
            c.getChildren().usingWatcher((Watcher) event -> seen.add(shown(event)))
                .forPath(it.root);
            c.checkExists().usingWatcher((Watcher) event -> seen.add(shown(event)))
                .forPath(it.root + "/a");
            c.setData().forPath(it.root, bytes("x"));
            same(seen.poll(5, TimeUnit.SECONDS), "NodeDataChanged " + it.root, "the data");
            c.create().forPath(it.root + "/a");
            List<String> two = new ArrayList<>(List.of(seen.poll(5, TimeUnit.SECONDS),
                seen.poll(5, TimeUnit.SECONDS)));
            Collections.sort(two);
            same(two, List.of("NodeChildrenChanged " + it.root, "NodeCreated " + it.root + "/a"),
                "a child");
            c.setData().forPath(it.root, bytes("y"));
            want(seen.poll(300, TimeUnit.MILLISECONDS) == null, "once");
        });
        trials.put("watch-persistent", it -> {
            CuratorFramework c = it.client();
            BlockingQueue<String> seen = new LinkedBlockingQueue<>();
            c.create().creatingParentsIfNeeded().forPath(it.root);
            c.watchers().add().withMode(AddWatchMode.PERSISTENT)
                .usingWatcher((Watcher) event -> seen.add(shown(event))).forPath(it.root);
            for (int turn = 0; turn < 3; turn++) {
                c.setData().forPath(it.root, bytes("x" + turn));
                same(seen.poll(5, TimeUnit.SECONDS), "NodeDataChanged " + it.root, "turn " + turn);
            }
            c.create().forPath(it.root + "/a");
            same(seen.poll(5, TimeUnit.SECONDS), "NodeChildrenChanged " + it.root, "a child");
        });
        trials.put("watch-recursive", it -> {
            CuratorFramework c = it.client();
            BlockingQueue<String> seen = new LinkedBlockingQueue<>();
            c.create().creatingParentsIfNeeded().forPath(it.root);
            c.watchers().add().withMode(AddWatchMode.PERSISTENT_RECURSIVE)
                .usingWatcher((Watcher) event -> seen.add(shown(event))).forPath(it.root);
            c.create().forPath(it.root + "/a");
            c.create().forPath(it.root + "/a/b");
            c.delete().forPath(it.root + "/a/b");
            same(seen.poll(5, TimeUnit.SECONDS), "NodeCreated " + it.root + "/a", "a child");
            same(seen.poll(5, TimeUnit.SECONDS), "NodeCreated " + it.root + "/a/b", "a grandchild");
            same(seen.poll(5, TimeUnit.SECONDS), "NodeDeleted " + it.root + "/a/b", "and its end");
        });
        trials.put("watch-removed", it -> {
            CuratorFramework c = it.client();
            BlockingQueue<String> seen = new LinkedBlockingQueue<>();
            Watcher watcher = event -> seen.add(shown(event));
            c.create().creatingParentsIfNeeded().forPath(it.root);
            c.getData().usingWatcher(watcher).forPath(it.root);
            c.watchers().remove(watcher).forPath(it.root);
            same(seen.poll(5, TimeUnit.SECONDS), "DataWatchRemoved " + it.root,
                "told by the client");
            c.setData().forPath(it.root, bytes("x"));
            want(seen.poll(300, TimeUnit.MILLISECONDS) == null, "it is removed");
        });
        trials.put("watch-all-removed", it -> {
            CuratorFramework c = it.client();
            BlockingQueue<String> seen = new LinkedBlockingQueue<>();
            c.create().creatingParentsIfNeeded().forPath(it.root);
            c.watchers().add().withMode(AddWatchMode.PERSISTENT)
                .usingWatcher((Watcher) event -> seen.add(shown(event))).forPath(it.root);
            c.watchers().removeAll().forPath(it.root);
            seen.poll(1, TimeUnit.SECONDS);
            seen.clear();
            c.setData().forPath(it.root, bytes("x"));
            want(seen.poll(300, TimeUnit.MILLISECONDS) == null, "it is removed");
        });
        trials.put("persistent-watcher", it -> {
            CuratorFramework c = it.client();
            BlockingQueue<String> seen = new LinkedBlockingQueue<>();
            PersistentWatcher watcher = it.ends(new PersistentWatcher(c, it.root, true));
            CountDownLatch ready = new CountDownLatch(1);
            watcher.getResetListenable().addListener(ready::countDown);
            watcher.getListenable().addListener(event -> seen.add(shown(event)));
            watcher.start();
            want(ready.await(5, TimeUnit.SECONDS), "it is set");
            c.create().creatingParentsIfNeeded().forPath(it.root + "/a/b");
            same(seen.poll(5, TimeUnit.SECONDS), "NodeCreated " + it.root, "the first");
        });
    }
}
