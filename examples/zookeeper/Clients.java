import java.nio.charset.StandardCharsets;
import java.nio.file.Path;
import java.util.ArrayList;
import java.util.List;
import java.util.Random;
import java.util.concurrent.Callable;
import java.util.concurrent.CompletableFuture;
import java.util.concurrent.Executors;
import java.util.concurrent.Future;
import org.apache.zookeeper.CreateMode;
import org.apache.zookeeper.KeeperException;
import org.apache.zookeeper.Watcher.Event.KeeperState;
import org.apache.zookeeper.ZooDefs.Ids;
import org.apache.zookeeper.ZooKeeper;
import org.apache.zookeeper.data.Stat;

/**
 * The clients of a run: four threads read, write, compare and set, and delete a few nodes of ZooKeeper, and record each call.
 *
 * <pre>java -cp .. Clients MODE SEED LOG PORT..</pre>
 *
 * run.py says which modes there are.
 */
public final class Clients {
    private static final List<String> NAMES = List.of("alice", "bob", "carol", "dave");
    private static final List<String> FRUITS = List.of("apples", "pears", "plums", "figs");
    private static final String FIRST_VALUE = "from before";
    private static final int CALLS = 40, LONGEST_PAUSE = 4, TRIES = 5, LONG_TIME_OUT = 10_000, SHORT_TIME_OUT = 900;
    private static final double DELETES = 0.1, WRITES = 0.3, SWAPS = 0.1;

    private final String mode;
    private final List<String> servers = new ArrayList<>();
    private final List<String> keys;
    private final Recorder recorder;

    private Clients(String mode, String seed, Path log, List<String> ports) throws Exception {
        this.mode = mode;
        for (String port : ports)
            servers.add("127.0.0.1:" + port);
        this.keys = prepared(seed);
        this.recorder = new Recorder(log, Clients::isCertain);
    }

    public static void main(String[] words) throws Exception {
        var clients = new Clients(words[0], words[1], Path.of(words[2]), List.of(words).subList(3, words.length));
        try (clients.recorder) {
            clients.run(new Random(Long.parseLong(words[1])));
        }
    }

    /** Whether a call that ended by this exception had no effect, for certain: a server answered why it did nothing. */
    static boolean isCertain(Throwable error) {
        if (!(error instanceof KeeperException))
            return false;
        switch (((KeeperException) error).code()) {
            case NONODE:
            case NODEEXISTS:
            case BADVERSION:
            case NOTEMPTY:
            case NOAUTH:
            case INVALIDACL:
            case BADARGUMENTS:
                return true;
            default:
                return false;
        }
    }

    /**
     * The nodes of a run, each with a first value. Every session begun later sees it: to begin one is a write, too, and its server has made
     * all before. Where a try fails, the next one makes other nodes, so that none of its writes comes late.
     */
    private List<String> prepared(String seed) throws Exception {
        for (int number = 1; true; number++) {
            var found = new ArrayList<String>();
            try (ZooKeeper store = session(String.join(",", servers), LONG_TIME_OUT)) {
                for (String fruit : FRUITS) {
                    found.add("/run" + seed + "." + number + "-" + fruit);
                    create(store, found.get(found.size() - 1), FIRST_VALUE);
                }
                return found;
            } catch (KeeperException fault) {
                if (number == TRIES)
                    throw fault;
            }
        }
    }

    /** Makes all calls of all clients, each in a thread, and throws what one of them throws. */
    private void run(Random random) throws Exception {
        for (String key : keys)
            recorder.start(key, FIRST_VALUE);
        var threads = Executors.newFixedThreadPool(NAMES.size());
        var ends = new ArrayList<Future<Void>>();
        for (String name : NAMES) {
            var own = new Random(random.nextLong());
            boolean hasOneSession = mode.equals("paused") || mode.equals("elected");
            Callable<Void> body = hasOneSession ? () -> callAnyServer(name, own) : () -> callEachServer(name, own);
            ends.add(threads.submit(body));
        }
        threads.shutdown();
        for (var end : ends)
            end.get();
    }

    /** The calls of a client that has one session at a time, which ZooKeeper moves on where a server does not answer. */
    private Void callAnyServer(String name, Random random) throws Exception {
        var client = recorder.client(name);
        String all = String.join(",", servers);
        ZooKeeper store = session(all, SHORT_TIME_OUT);
        for (int call = 0; call < 3 * CALLS; call++) {
            try {
                call(client, store, random);
            } catch (KeeperException.SessionExpiredException over) {
                store.close();
                store = session(all, SHORT_TIME_OUT);
                client.reconnected();
            } catch (KeeperException recorded) {
                continue;
            }
        }
        store.close();
        return null;
    }

    /** The calls of a client that has a session at each server. In the mode "sessions" each session is a client of the log. */
    private Void callEachServer(String name, Random random) throws Exception {
        var stores = new ArrayList<ZooKeeper>();
        var clients = new ArrayList<Recorder.Client>();
        var whole = mode.equals("sessions") ? null : recorder.client(name);
        for (String server : servers) {
            stores.add(session(server, LONG_TIME_OUT));
            clients.add(whole != null ? whole : recorder.client(name + "@" + stores.size()));
        }
        for (int call = 0; call < CALLS; call++) {
            int at = random.nextInt(stores.size());
            try {
                call(clients.get(at), stores.get(at), random);
            } catch (KeeperException recorded) {
                continue;
            }
        }
        for (ZooKeeper store : stores)
            store.close();
        return null;
    }

    /** Makes a call after a pause, recorded. What it throws was recorded as well. */
    private void call(Recorder.Client client, ZooKeeper store, Random random) throws Exception {
        Thread.sleep(random.nextInt(LONGEST_PAUSE + 1));
        double fate = random.nextDouble();
        String key = keys.get(random.nextInt(keys.size()));
        if (fate < DELETES)
            delete(client, store, keys.get(keys.size() - 1));
        else if (fate < DELETES + WRITES)
            write(client, store, key);
        else if (fate < DELETES + WRITES + SWAPS)
            swap(client, store, key);
        else
            client.read(key, () -> value(store, key, new Stat()));
    }

    private static void delete(Recorder.Client client, ZooKeeper store, String key) throws Exception {
        client.delete(key, () -> {
            store.delete(key, -1);
            return true;
        });
    }

    /** Sets a node. Where there is none, that failed, and to create one is a write of its own, with a new value. */
    private static void write(Recorder.Client client, ZooKeeper store, String key) throws Exception {
        try {
            String value = client.newValue();
            client.write(key, value, () -> store.setData(key, bytes(value), -1));
        } catch (KeeperException.NoNodeException none) {
            String value = client.newValue();
            client.write(key, value, () -> create(store, key, value));
        }
    }

    /** Reads a node, and sets it unless somebody set it meanwhile. */
    private void swap(Recorder.Client client, ZooKeeper store, String key) throws Exception {
        var seen = new Stat();
        if (client.read(key, () -> value(store, key, seen)) == null)
            return;
        String value = client.newValue();
        client.cas(key, value, () -> {
            store.setData(key, bytes(value), seen.getVersion());
            return true;
        });
    }

    /** What a node holds, or null where there is none. In the mode "synced" the server first takes in all that the leader has. */
    private String value(ZooKeeper store, String key, Stat seen) throws Exception {
        if (mode.equals("synced"))
            sync(store, key);
        try {
            return new String(store.getData(key, false, seen), StandardCharsets.UTF_8);
        } catch (KeeperException.NoNodeException none) {
            return null;
        }
    }

    private static void sync(ZooKeeper store, String key) throws Exception {
        var answer = new CompletableFuture<Integer>();
        store.sync(key, (code, path, context) -> answer.complete(code), null);
        if (answer.get() != KeeperException.Code.OK.intValue())
            throw KeeperException.create(KeeperException.Code.get(answer.get()), key);
    }

    /** Begins a session, and waits until a server has it. */
    private static ZooKeeper session(String servers, int timeOut) throws Exception {
        var isThere = new CompletableFuture<Void>();
        var store = new ZooKeeper(servers, timeOut, event -> {
            if (event.getState() == KeeperState.SyncConnected)
                isThere.complete(null);
        });
        isThere.get();
        return store;
    }

    private static void create(ZooKeeper store, String key, String value) throws Exception {
        store.create(key, bytes(value), Ids.OPEN_ACL_UNSAFE, CreateMode.PERSISTENT);
    }

    private static byte[] bytes(String value) {
        return value.getBytes(StandardCharsets.UTF_8);
    }
}
