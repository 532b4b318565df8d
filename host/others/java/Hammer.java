import java.io.IOException;
import java.io.PrintWriter;
import java.util.ArrayList;
import java.util.Comparator;
import java.util.HashMap;
import java.util.List;
import java.util.Map;
import java.util.Random;
import java.util.TreeSet;
import java.util.concurrent.CountDownLatch;
import java.util.concurrent.TimeUnit;
import java.util.concurrent.atomic.AtomicInteger;
import java.util.concurrent.atomic.AtomicLong;
import java.util.concurrent.locks.Condition;
import java.util.concurrent.locks.ReentrantLock;

/**
 * Threads that call ReentrantLock and Condition at random, by a seed, or meet as a probe has it, and note their calls. The
 * machine starts slowly, so one run writes the histories of several seeds: SEED.history in the folder RECORD_FOLDER.
 */
final class Hammer {
    static final int BUSY = 16, TIMED_OUT = 110, NOT_OWNER = 1, MOST_HELD = 3, MOST_MICROSECONDS = 1500;

    final AtomicLong places = new AtomicLong();
    final long start = System.nanoTime();
    final Map<String, Integer> orders;
    final ReentrantLock[] mutexes;
    final Condition[] variables;
    final AtomicInteger[] waiting;
    final AtomicInteger stage = new AtomicInteger();

    /** A line, its place in the one order, when it was noted, and the deadline of the call that begins; 0 is none. */
    record Noted(long place, String line, long time, long deadline) {}

    Hammer(Map<String, Integer> orders) {
        this.orders = orders;
        int count = orders.get("mutexes");
        mutexes = new ReentrantLock[count];
        variables = new Condition[count];
        waiting = new AtomicInteger[count];
        for (int i = 0; i < count; i++) {
            mutexes[i] = new ReentrantLock(orders.get("fair") == 1);
            variables[i] = mutexes[i].newCondition();
            waiting[i] = new AtomicInteger();
        }
    }

    /** Whole microseconds since the start. */
    long now() {
        return (System.nanoTime() - start) / 1000;
    }

    /** A thread of the history: what it noted, what it chooses by, and how often it holds each mutex. */
    final class Caller {
        final int number;
        final Random random;
        final List<Noted> lines = new ArrayList<>(4096);
        final int[] held = new int[mutexes.length];

        Caller(int number, long seed) {
            this.number = number;
            random = new Random(seed);
        }

        boolean happens(int perCent) {
            return random.nextInt(100) < perCent;
        }

        /** Times of lines are rounded up, and deadlines down. */
        void note(String line, long deadline) {
            long place = places.incrementAndGet();
            lines.add(new Noted(place, line, now() + 1, deadline));
        }

        void begin(String call) {
            note("begin t" + number + " " + call, 0);
        }

        void beginTimed(String call, long deadline) {
            note("begin t" + number + " " + call + " " + deadline, deadline);
        }

        int answer(int answer) {
            note("answer t" + number + " " + answer, 0);
            return answer;
        }

        void took(int mutex, int answer) {
            held[mutex] += answer == 0 ? 1 : 0;
        }

        void lock(int mutex) {
            begin("lock m" + (mutex + 1));
            mutexes[mutex].lock();
            took(mutex, answer(0));
        }

        boolean trylock(int mutex) {
            begin("trylock m" + (mutex + 1));
            int answer = answer(mutexes[mutex].tryLock() ? 0 : BUSY);
            took(mutex, answer);
            return answer == 0;
        }

        boolean timedlock(int mutex, long microseconds) throws InterruptedException {
            beginTimed("timedlock m" + (mutex + 1), now() + microseconds);
            int answer = answer(mutexes[mutex].tryLock(microseconds, TimeUnit.MICROSECONDS) ? 0 : TIMED_OUT);
            took(mutex, answer);
            return answer == 0;
        }

        void unlock(int mutex) {
            begin("unlock m" + (mutex + 1));
            try {
                mutexes[mutex].unlock();
                answer(0);
                held[mutex]--;
            } catch (IllegalMonitorStateException notOwner) {
                answer(NOT_OWNER);
            }
        }

        void await(int mutex) throws InterruptedException {
            waiting[mutex].incrementAndGet();
            begin("wait c" + (mutex + 1) + " m" + (mutex + 1));
            variables[mutex].await();
            answer(0);
            waiting[mutex].decrementAndGet();
        }

        void timedAwait(int mutex, long microseconds) throws InterruptedException {
            waiting[mutex].incrementAndGet();
            beginTimed("timedwait c" + (mutex + 1) + " m" + (mutex + 1), now() + microseconds);
            answer(variables[mutex].await(microseconds, TimeUnit.MICROSECONDS) ? 0 : TIMED_OUT);
            waiting[mutex].decrementAndGet();
        }

        void signal(int mutex) {
            begin("signal c" + (mutex + 1));
            variables[mutex].signal();
            answer(0);
        }

        void signalAll(int mutex) {
            begin("broadcast c" + (mutex + 1));
            variables[mutex].signalAll();
            answer(0);
        }

        void take(int mutex) throws InterruptedException {
            if (happens(orders.get("trylock"))) {
                trylock(mutex);
            } else if (happens(orders.get("timed"))) {
                timedlock(mutex, random.nextInt(MOST_MICROSECONDS));
            } else {
                lock(mutex);
            }
        }

        /** The highest that is held; -1 if none is. */
        int highest() {
            int found = mutexes.length - 1;
            while (found >= 0 && held[found] == 0) {
                found--;
            }
            return found;
        }

        /** A variable is used by who holds its mutex alone. */
        void use(int mutex) throws InterruptedException {
            if (happens(45)) {
                if (happens(70)) {
                    signal(mutex);
                } else {
                    signalAll(mutex);
                }
            } else if (happens(orders.get("timed"))) {
                timedAwait(mutex, random.nextInt(MOST_MICROSECONDS));
            } else {
                await(mutex);
            }
        }

        /** One call. Mutexes are taken in rising order, so that no circle of threads waits. */
        void step() throws InterruptedException {
            int last = highest();
            if (last < 0) {
                int mutex = random.nextInt(mutexes.length);
                if (happens(3)) {
                    unlock(mutex);
                } else {
                    take(mutex);
                }
            } else if (happens(orders.get("waits")) && (held[last] == 1 || orders.get("deep") == 1)) {
                use(last);
            } else if (last + 1 < mutexes.length && happens(20)) {
                take(last + 1);
            } else if (held[last] < MOST_HELD && happens(15)) {
                take(last);
            } else {
                unlock(last);
            }
        }

        void work() throws InterruptedException {
            for (int left = orders.get("calls"); left > 0; left--) {
                step();
            }
            giveAllUp();
        }

        void giveAllUp() {
            for (int last = highest(); last >= 0; last = highest()) {
                unlock(last);
            }
        }

        void reach(int wanted) throws InterruptedException {
            while (stage.get() < wanted) {
                Thread.sleep(0, 50_000);
            }
        }
    }

    /** What a thread does. */
    interface Body {
        void run(Caller caller) throws InterruptedException;
    }

    /** Wakes those that wait, until all have ended. */
    void pace(Caller caller, AtomicInteger left) throws InterruptedException {
        while (left.get() > 0) {
            Thread.sleep(1);
            for (int mutex = 0; mutex < mutexes.length; mutex++) {
                if (waiting[mutex].get() > 0 && caller.trylock(mutex)) {
                    caller.signalAll(mutex);
                    caller.unlock(mutex);
                }
            }
        }
    }

    void play(List<Body> bodies, boolean isPaced, String file) throws Exception {
        List<Caller> callers = new ArrayList<>();
        AtomicInteger left = new AtomicInteger(bodies.size());
        CountDownLatch all = new CountDownLatch(bodies.size());
        long seed = orders.get("seed") * 1000L;
        for (int i = 0; i <= bodies.size(); i++) {
            callers.add(new Caller(i + 1, seed + i));
        }
        for (int i = 0; i < bodies.size(); i++) {
            Body body = bodies.get(i);
            Caller caller = callers.get(i);
            new Thread(() -> {
                try {
                    body.run(caller);
                } catch (InterruptedException nobody) {
                    throw new IllegalStateException(nobody);
                }
                left.decrementAndGet();
                all.countDown();
            }).start();
        }
        if (isPaced) {
            pace(callers.get(bodies.size()), left);
        }
        all.await();
        write(callers, file);
    }

    /** A tick stands before the first line whose time reaches a deadline. */
    void write(List<Caller> callers, String file) throws IOException {
        List<Noted> all = new ArrayList<>();
        callers.forEach(caller -> all.addAll(caller.lines));
        all.sort(Comparator.comparingLong(Noted::place));
        TreeSet<Long> deadlines = new TreeSet<>();
        long tick = 0, greatest = 0;
        try (PrintWriter out = new PrintWriter(file)) {
            callers.forEach(caller -> out.println("thread 1"));
            for (int mutex = 0; mutex < mutexes.length; mutex++) {
                out.println("mutex recursive");
            }
            for (int mutex = 1; mutex <= mutexes.length; mutex++) {
                out.println("cond m" + mutex);
            }
            for (Noted noted : all) {
                greatest = Math.max(greatest, noted.time());
                if (noted.deadline() > tick) {
                    deadlines.add(noted.deadline());
                }
                if (!deadlines.isEmpty() && greatest >= deadlines.first()) {
                    out.println("tick " + greatest);
                    tick = greatest;
                    deadlines.headSet(greatest, true).clear();
                }
                out.println(noted.line());
            }
        }
    }

    /** A signal at the moment at which the first of two waits runs out of time. */
    List<Body> signalAtATimeout() {
        long[] end = new long[1];
        return List.of(
            caller -> {
                caller.lock(0);
                end[0] = now() + 2500;
                stage.set(1);
                caller.timedAwait(0, 2500);
                caller.unlock(0);
            },
            caller -> {
                caller.reach(1);
                caller.lock(0);
                stage.set(2);
                caller.timedAwait(0, 9000);
                caller.unlock(0);
            },
            caller -> {
                caller.reach(2);
                long until = end[0] + caller.random.nextInt(120) - 10;
                while (now() < until) {
                    Thread.onSpinWait();
                }
                caller.lock(0);
                caller.signal(0);
                caller.unlock(0);
            });
    }

    /** A wait with a mutex that is held twice, and whether another one can have it meanwhile. */
    List<Body> waitWithTwoHolds() {
        return List.of(
            caller -> {
                caller.lock(0);
                caller.lock(0);
                stage.set(1);
                caller.timedAwait(0, 40000);
                caller.giveAllUp();
            },
            caller -> {
                caller.reach(1);
                boolean isHad = false;
                for (int left = 10; left > 0 && !isHad; left--) {
                    Thread.sleep(2);
                    isHad = caller.trylock(0);
                }
                caller.giveAllUp();
            });
    }

    /** One sleeps, another one has a deadline that passes about when the owner gives the mutex up. */
    List<Body> timedLockAtAnUnlock() {
        return List.of(
            caller -> {
                caller.lock(0);
                stage.set(1);
                caller.reach(2);
                Thread.sleep(2);
                long until = now() + caller.random.nextInt(1200);
                while (now() < until) {
                    Thread.onSpinWait();
                }
                caller.unlock(0);
            },
            caller -> {
                caller.reach(1);
                stage.set(2);
                caller.lock(0);
                caller.unlock(0);
            },
            caller -> {
                caller.reach(2);
                if (caller.timedlock(0, 2700)) {
                    caller.unlock(0);
                }
            });
    }

    /** One sleeps. The owner gives the mutex up, wants it again in time, and tries it: a fair lock lets only the last go first. */
    List<Body> timedLockBehindASleeper() {
        return List.of(
            caller -> {
                caller.lock(0);
                stage.set(1);
                while (!mutexes[0].hasQueuedThreads()) {
                    Thread.onSpinWait();
                }
                Thread.sleep(1);
                caller.unlock(0);
                caller.timedlock(0, 20);
                caller.trylock(0);
                caller.giveAllUp();
            },
            caller -> {
                caller.reach(1);
                caller.lock(0);
                caller.unlock(0);
            });
    }

    /** Each has a mutex, and wants that of the other one. */
    List<Body> cycleWithDeadlines() {
        return List.of(
            caller -> {
                caller.lock(0);
                stage.incrementAndGet();
                caller.reach(2);
                caller.timedlock(1, 5000);
                caller.giveAllUp();
            },
            caller -> {
                caller.reach(1);
                caller.lock(1);
                stage.set(2);
                Thread.sleep(1);
                caller.timedlock(0, 3000);
                caller.giveAllUp();
            });
    }

    List<Body> held300Times() {
        return List.of(caller -> {
            for (int left = 300; left > 0; left--) {
                caller.lock(0);
            }
            caller.giveAllUp();
        });
    }

    List<Body> bodies(String name) {
        switch (name) {
            case "signal_at_a_timeout":
                return signalAtATimeout();
            case "wait_with_two_holds":
                return waitWithTwoHolds();
            case "timed_lock_at_an_unlock":
                return timedLockAtAnUnlock();
            case "timed_lock_behind_a_sleeper":
                return timedLockBehindASleeper();
            case "cycle_with_deadlines":
                return cycleWithDeadlines();
            case "held_300_times":
                return held300Times();
            default:
                List<Body> all = new ArrayList<>();
                for (int left = orders.get("threads"); left > 0; left--) {
                    all.add(Caller::work);
                }
                return all;
        }
    }

    /** The first calls of all load classes, which takes long. */
    static void warmUp() throws InterruptedException {
        ReentrantLock lock = new ReentrantLock();
        Condition variable = lock.newCondition();
        for (int left = 100; left > 0; left--) {
            lock.tryLock(1, TimeUnit.MICROSECONDS);
            variable.await(1, TimeUnit.MICROSECONDS);
            variable.signal();
            variable.signalAll();
            lock.unlock();
        }
    }

    public static void main(String[] words) throws Exception {
        Map<String, Integer> orders = new HashMap<>(Map.of("threads", 3, "mutexes", 1, "calls", 30, "seed", 1, "waits", 30,
            "trylock", 20, "timed", 30, "fair", 0, "deep", 0, "seeds", 1));
        String name = words.length % 2 == 1 ? words[0] : "random";
        for (int i = words.length % 2; i + 1 < words.length; i += 2) {
            orders.put(words[i].substring(2), Integer.valueOf(words[i + 1]));
        }
        warmUp();
        int first = orders.get("seed"), last = first + orders.get("seeds");
        for (int seed = first; seed < last; seed++) {
            orders.put("seed", seed);
            Hammer hammer = new Hammer(new HashMap<>(orders));
            hammer.play(hammer.bodies(name), name.equals("random"), System.getenv("RECORD_FOLDER") + "/" + seed + ".history");
        }
        System.exit(0);
    }
}
