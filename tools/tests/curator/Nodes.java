package trials;

import static trials.Trials.*;

import java.util.List;
import java.util.concurrent.BlockingQueue;
import java.util.concurrent.CountDownLatch;
import java.util.concurrent.LinkedBlockingQueue;
import java.util.concurrent.TimeUnit;
import org.apache.curator.framework.CuratorFramework;
import org.apache.curator.framework.CuratorFrameworkFactory;
import org.apache.curator.framework.api.transaction.CuratorOp;
import org.apache.curator.framework.state.ConnectionState;
import org.apache.curator.retry.RetryNTimes;
import org.apache.zookeeper.CreateMode;
import org.apache.zookeeper.KeeperException;
import org.apache.zookeeper.ZooDefs;
import org.apache.zookeeper.ZooKeeper;
import org.apache.zookeeper.data.Stat;

/** Nodes, as the framework reads and changes them. */
final class Nodes {
    static void add() {
        trials.put("create", it -> {
            CuratorFramework c = it.client();
            same(c.create().creatingParentsIfNeeded().forPath(it.root, bytes("one")), it.root,
                "its path");
            Stat stat = new Stat();
            same(text(c.getData().storingStatIn(stat).forPath(it.root)), "one", "its data");
            same(c.setData().withVersion(stat.getVersion()).forPath(it.root, bytes("two"))
                .getVersion(), 1, "version");
            try {
                c.setData().withVersion(0).forPath(it.root, bytes("three"));
                want(false, "an old version");
            } catch (KeeperException.BadVersionException wanted) { /* as it should */ }
            c.delete().withVersion(1).forPath(it.root);
            want(c.checkExists().forPath(it.root) == null, "it is gone");
        });
        trials.put("parents-are-containers", it -> {
            CuratorFramework c = it.client();
            c.create().creatingParentContainersIfNeeded().forPath(it.root + "/a/b");
            c.delete().forPath(it.root + "/a/b");
            soon(() -> c.checkExists().forPath(it.root + "/a") == null, "an empty container goes");
        });
        trials.put("container", it -> {
            CuratorFramework c = it.client();
            c.create().creatingParentsIfNeeded().withMode(CreateMode.CONTAINER)
                .forPath(it.root + "/c");
            c.create().forPath(it.root + "/c/a");
            c.delete().forPath(it.root + "/c/a");
            soon(() -> c.checkExists().forPath(it.root + "/c") == null, "an empty container goes");
        });
        trials.put("protected", it -> {
            CuratorFramework c = it.client();
            String made = c.create().creatingParentContainersIfNeeded().withProtection()
                .withMode(CreateMode.EPHEMERAL_SEQUENTIAL).forPath(it.root + "/lock-");
            want(made.contains("/_c_") && made.endsWith("-lock-0000000000"), made);
            same(c.getChildren().forPath(it.root).size(), 1, "one node");
        });
        trials.put("ephemeral", it -> {
            CuratorFramework c = it.client(), other = it.client();
            other.create().creatingParentsIfNeeded().withMode(CreateMode.EPHEMERAL)
                .forPath(it.root + "/e");
            want(c.checkExists().forPath(it.root + "/e").getEphemeralOwner() != 0, "its owner");
            other.close();
            soon(() -> c.checkExists().forPath(it.root + "/e") == null, "it goes with its session");
        });
        trials.put("ttl", it -> {
            CuratorFramework c = it.client();
            c.create().creatingParentsIfNeeded().forPath(it.root);
            c.create().withTtl(1000).withMode(CreateMode.PERSISTENT_WITH_TTL)
                .forPath(it.root + "/t");
            c.create().withTtl(1000).withMode(CreateMode.PERSISTENT_SEQUENTIAL_WITH_TTL)
                .forPath(it.root + "/s");
            soon(() -> c.getChildren().forPath(it.root).isEmpty(), "they expire");
        });
        trials.put("idempotent", it -> {
            CuratorFramework c = it.client();
            c.create().creatingParentsIfNeeded().forPath(it.root, bytes("a"));
            same(c.create().idempotent().forPath(it.root, bytes("a")), it.root, "again");
            c.setData().idempotent().withVersion(0).forPath(it.root, bytes("b"));
            c.setData().idempotent().withVersion(0).forPath(it.root, bytes("b"));
            c.delete().idempotent().forPath(it.root);
            c.delete().idempotent().forPath(it.root);
        });
        trials.put("or-set-data", it -> {
            CuratorFramework c = it.client();
            c.create().orSetData().creatingParentsIfNeeded().forPath(it.root, bytes("a"));
            c.create().orSetData().creatingParentsIfNeeded().forPath(it.root, bytes("b"));
            same(text(c.getData().forPath(it.root)), "b", "the data");
        });
        trials.put("delete-children", it -> {
            CuratorFramework c = it.client();
            c.create().creatingParentsIfNeeded().forPath(it.root + "/a/b/c");
            c.create().forPath(it.root + "/a/d");
            c.delete().guaranteed().deletingChildrenIfNeeded().forPath(it.root + "/a");
            c.delete().quietly().forPath(it.root + "/a");
            same(c.getChildren().forPath(it.root), List.of(), "nothing is left");
        });
        trials.put("compressed", it -> {
            CuratorFramework c = it.client();
            c.create().compressed().creatingParentsIfNeeded()
                .forPath(it.root, bytes("a".repeat(5000)));
            want(c.getData().forPath(it.root).length < 200, "it is compressed");
            same(c.getData().decompressed().forPath(it.root).length, 5000, "and read");
        });
        trials.put("acl", it -> {
            CuratorFramework c = it.client();
            c.create().creatingParentsIfNeeded().withACL(ZooDefs.Ids.OPEN_ACL_UNSAFE)
                .forPath(it.root);
            same(c.getACL().forPath(it.root), ZooDefs.Ids.OPEN_ACL_UNSAFE, "the open one");
            same(c.setACL().withVersion(0).withACL(ZooDefs.Ids.OPEN_ACL_UNSAFE).forPath(it.root)
                .getAversion(), 1, "set");
        });
        trials.put("namespace", it -> {
            CuratorFramework c = it.client(), inside = it.client(it.root.substring(1));
            inside.create().forPath("/a", bytes("x"));
            same(text(c.getData().forPath(it.root + "/a")), "x", "beneath its namespace");
        });
        trials.put("background", it -> {
            CuratorFramework c = it.client();
            BlockingQueue<Integer> codes = new LinkedBlockingQueue<>();
            c.create().creatingParentsIfNeeded()
                .inBackground((client, event) -> codes.add(event.getResultCode())).forPath(it.root);
            same(codes.poll(5, TimeUnit.SECONDS), 0, "made");
            c.create().inBackground((client, event) -> codes.add(event.getResultCode()))
                .forPath(it.root);
            same(codes.poll(5, TimeUnit.SECONDS), KeeperException.Code.NODEEXISTS.intValue(),
                "refused");
        });
        trials.put("sync", it -> {
            CuratorFramework c = it.client();
            CountDownLatch done = new CountDownLatch(1);
            c.sync().inBackground((client, event) -> done.countDown()).forPath("/");
            want(done.await(5, TimeUnit.SECONDS), "it is answered");
        });
        trials.put("transaction", it -> {
            CuratorFramework c = it.client();
            c.create().creatingParentsIfNeeded().forPath(it.root);
            List<CuratorOp> all = List.of(c.transactionOp().create()
                .forPath(it.root + "/a", bytes("x")),
                c.transactionOp().setData().forPath(it.root + "/a", bytes("y")),
                c.transactionOp().check().withVersion(1).forPath(it.root + "/a"),
                c.transactionOp().create().withMode(CreateMode.CONTAINER).forPath(it.root + "/c"),
                c.transactionOp().delete().forPath(it.root + "/a"));
            same(c.transaction().forOperations(all).size(), 5, "all parts");
            same(c.getChildren().forPath(it.root), List.of("c"), "what is left");
        });
        trials.put("transaction-refused", it -> {
            CuratorFramework c = it.client();
            c.create().creatingParentsIfNeeded().forPath(it.root);
            try {
                c.transaction().forOperations(c.transactionOp().create().forPath(it.root + "/a"),
                    c.transactionOp().delete().forPath(it.root + "/no"));
                want(false, "it is refused");
            } catch (KeeperException.NoNodeException wanted) {
                same(wanted.getResults().size(), 2, "each part");
            }
            same(c.getChildren().forPath(it.root), List.of(), "nothing is done");
        });
        trials.put("config", it ->
            want(it.client().getConfig().forEnsemble() != null, "it is told"));
        trials.put("children-number", it -> {
            CuratorFramework c = it.client();
            c.create().creatingParentsIfNeeded().forPath(it.root + "/a/b");
            ZooKeeper plain = c.getZookeeperClient().getZooKeeper();
            same(plain.getAllChildrenNumber(it.root), 2, "of all below");
        });
        trials.put("ephemerals", it -> {
            CuratorFramework c = it.client();
            c.create().creatingParentsIfNeeded().withMode(CreateMode.EPHEMERAL)
                .forPath(it.root + "/e");
            same(c.getZookeeperClient().getZooKeeper().getEphemerals(it.root),
                List.of(it.root + "/e"), "its own");
        });
        trials.put("states", it -> {
            CuratorFramework c = CuratorFrameworkFactory.newClient(address,
                new RetryNTimes(1, 100));
            BlockingQueue<ConnectionState> seen = new LinkedBlockingQueue<>();
            c.getConnectionStateListenable().addListener((client, state) -> seen.add(state));
            c.start();
            it.ends(c);
            same(seen.poll(5, TimeUnit.SECONDS), ConnectionState.CONNECTED, "the first state");
        });
    }
}
