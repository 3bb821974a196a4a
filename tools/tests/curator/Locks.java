package trials;

import static trials.Trials.*;

import java.util.ArrayList;
import java.util.List;
import java.util.concurrent.BlockingQueue;
import java.util.concurrent.CountDownLatch;
import java.util.concurrent.Future;
import java.util.concurrent.LinkedBlockingQueue;
import java.util.concurrent.TimeUnit;
import java.util.concurrent.atomic.AtomicInteger;
import org.apache.curator.framework.CuratorFramework;
import org.apache.curator.framework.recipes.leader.LeaderLatch;
import org.apache.curator.framework.recipes.leader.LeaderSelector;
import org.apache.curator.framework.recipes.leader.LeaderSelectorListenerAdapter;
import org.apache.curator.framework.recipes.locks.InterProcessLock;
import org.apache.curator.framework.recipes.locks.InterProcessMultiLock;
import org.apache.curator.framework.recipes.locks.InterProcessMutex;
import org.apache.curator.framework.recipes.locks.InterProcessReadWriteLock;
import org.apache.curator.framework.recipes.locks.InterProcessSemaphoreMutex;
import org.apache.curator.framework.recipes.locks.InterProcessSemaphoreV2;
import org.apache.curator.framework.recipes.locks.Lease;
import org.apache.curator.framework.recipes.locks.Revoker;
import org.apache.curator.framework.recipes.shared.SharedCount;

/** Locks, semaphores and leaders. */
final class Locks {
    /** Two clients take turns; no two are inside at once. */
    static void excludes(Scene it, InterProcessLock one, InterProcessLock two) throws Exception {
        AtomicInteger inside = new AtomicInteger();
        List<Future<Boolean>> all = new ArrayList<>();
        for (InterProcessLock lock : List.of(one, two)) {
            all.add(beside(() -> {
                boolean alone = true;
                for (int turn = 0; turn < 10; turn++) {
                    want(lock.acquire(5, TimeUnit.SECONDS), "it is acquired");
                    alone &= inside.incrementAndGet() == 1;
                    Thread.sleep(2);
                    inside.decrementAndGet();
                    lock.release();
                }
                return alone;
            }));
        }
        for (Future<Boolean> each : all) want(got(each), "one at a time");
    }

    static void add() {
        trials.put("mutex", it ->
            excludes(it, new InterProcessMutex(it.client(), it.root),
            new InterProcessMutex(it.client(), it.root)));
        trials.put("mutex-reentrant", it -> {
            InterProcessMutex lock = new InterProcessMutex(it.client(), it.root);
            lock.acquire();
            want(lock.acquire(1, TimeUnit.SECONDS), "again by its thread");
            lock.release();
            want(lock.isOwnedByCurrentThread(), "held once more");
            lock.release();
            want(!lock.isAcquiredInThisProcess(), "and given back");
        });
        trials.put("mutex-times-out", it -> {
            InterProcessMutex one = new InterProcessMutex(it.client(), it.root), two =
                new InterProcessMutex(it.client(), it.root);
            one.acquire();
            want(!two.acquire(300, TimeUnit.MILLISECONDS), "it isn't given");
            one.release();
            want(two.acquire(5, TimeUnit.SECONDS), "and then is");
            two.release();
        });
        trials.put("mutex-of-a-lost-client", it -> {
            CuratorFramework first = it.client();
            InterProcessMutex one = new InterProcessMutex(first, it.root), two =
                new InterProcessMutex(it.client(), it.root);
            one.acquire();
            first.close();
            want(two.acquire(5, TimeUnit.SECONDS), "the lock goes with its session");
            two.release();
        });
        trials.put("mutex-revoked", it -> {
            CuratorFramework c = it.client(), other = it.client();
            InterProcessMutex one = new InterProcessMutex(c, it.root);
            CountDownLatch asked = new CountDownLatch(1);
            one.makeRevocable(lock -> asked.countDown());
            one.acquire();
            Revoker.attemptRevoke(other, one.getParticipantNodes().iterator().next());
            want(asked.await(5, TimeUnit.SECONDS), "it is asked for");
            one.release();
        });
        trials.put("semaphore-mutex", it ->
            excludes(it, new InterProcessSemaphoreMutex(it.client(), it.root),
            new InterProcessSemaphoreMutex(it.client(), it.root)));
        trials.put("read-write", it -> {
            InterProcessReadWriteLock one = new InterProcessReadWriteLock(it.client(), it.root),
                two = new InterProcessReadWriteLock(it.client(), it.root);
            one.readLock().acquire();
            two.readLock().acquire();
            want(!two.writeLock().acquire(300, TimeUnit.MILLISECONDS), "not beside readers");
            two.readLock().release();
            one.readLock().release();
            want(two.writeLock().acquire(5, TimeUnit.SECONDS), "then alone");
            two.writeLock().release();
        });
        trials.put("read-write-lowered", it -> {
            InterProcessReadWriteLock one = new InterProcessReadWriteLock(it.client(), it.root),
                two = new InterProcessReadWriteLock(it.client(), it.root);
            one.writeLock().acquire();
            one.readLock().acquire();
            one.writeLock().release();
            want(two.readLock().acquire(5, TimeUnit.SECONDS), "another reader");
            two.readLock().release();
            one.readLock().release();
        });
        trials.put("semaphore", it -> {
            InterProcessSemaphoreV2 one = new InterProcessSemaphoreV2(it.client(), it.root, 2);
            Lease first = one.acquire(), second = one.acquire(5, TimeUnit.SECONDS);
            want(one.acquire(300, TimeUnit.MILLISECONDS) == null, "two alone");
            one.returnLease(first);
            Lease third = one.acquire(5, TimeUnit.SECONDS);
            want(third != null, "a third after one is back");
            one.returnAll(List.of(second, third));
        });
        trials.put("semaphore-of-a-count", it -> {
            CuratorFramework c = it.client();
            SharedCount count = it.ends(new SharedCount(c, it.root + "-count", 1));
            count.start();
            InterProcessSemaphoreV2 one = new InterProcessSemaphoreV2(c, it.root, count);
            Lease first = one.acquire();
            want(one.acquire(300, TimeUnit.MILLISECONDS) == null, "one alone");
            count.setCount(2);
            Lease second = one.acquire(5, TimeUnit.SECONDS);
            want(second != null, "two then");
            one.returnAll(List.of(first, second));
        });
        trials.put("multi-lock", it -> {
            CuratorFramework c = it.client(), other = it.client();
            InterProcessMultiLock both =
                new InterProcessMultiLock(c, List.of(it.root + "/a", it.root + "/b"));
            InterProcessMutex a = new InterProcessMutex(other, it.root + "/a");
            both.acquire();
            want(!a.acquire(300, TimeUnit.MILLISECONDS), "one of both");
            both.release();
            want(a.acquire(5, TimeUnit.SECONDS), "and then");
            a.release();
        });
        trials.put("latch", it -> {
            LeaderLatch one = it.ends(new LeaderLatch(it.client(), it.root, "one")), two =
                new LeaderLatch(it.client(), it.root, "two");
            two.start();
            want(two.await(5, TimeUnit.SECONDS), "the first leads");
            one.start();
            soon(() -> one.getParticipants().size() == 2, "two take part");
            same(one.getLeader().getId(), "two", "the leader's name");
            two.close();
            want(one.await(5, TimeUnit.SECONDS), "the next leads");
        });
        trials.put("latch-of-a-lost-client", it -> {
            CuratorFramework first = it.client();
            LeaderLatch one = new LeaderLatch(first, it.root), two =
                it.ends(new LeaderLatch(it.client(), it.root));
            one.start();
            want(one.await(5, TimeUnit.SECONDS), "the first leads");
            two.start();
            first.close();
            want(two.await(5, TimeUnit.SECONDS), "the other then");
        });
        trials.put("selector", it -> {
            BlockingQueue<Integer> led = new LinkedBlockingQueue<>();
            for (int number = 0; number < 3; number++) {
                int own = number;
                LeaderSelector one = it.ends(new LeaderSelector(it.client(), it.root,
                    new LeaderSelectorListenerAdapter() {
                    @Override public void takeLeadership(CuratorFramework client) { led.add(own); }
                }));
                one.autoRequeue();
                one.start();
            }
            List<Integer> first = new ArrayList<>();
            for (int turn = 0; turn < 6; turn++) first.add(led.poll(5, TimeUnit.SECONDS));
            for (int number = 0; number < 3; number++) want(first.contains(number),
                "each leads: " + first);
        });
    }
}
