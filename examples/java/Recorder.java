import java.io.Closeable;
import java.io.IOException;
import java.io.UncheckedIOException;
import java.math.BigDecimal;
import java.nio.ByteBuffer;
import java.nio.channels.FileChannel;
import java.nio.charset.StandardCharsets;
import java.nio.file.Path;
import java.nio.file.StandardOpenOption;
import java.util.HashMap;
import java.util.HashSet;
import java.util.List;
import java.util.Map;
import java.util.Objects;
import java.util.Set;
import java.util.StringJoiner;
import java.util.concurrent.Callable;
import java.util.function.Predicate;
import java.util.function.Supplier;

/**
 * Records what the clients of a store call and are answered, as a log that causal_judge judges: a line before each call, and one when it
 * ended. It is one file to copy, and needs Java 11 or newer.
 *
 * <pre>
 * try (var recorder = new Recorder(Path.of("run.jsonl"), error -> error instanceof Refused)) {
 *     var alice = recorder.client("alice");
 *     String value = alice.newValue();
 *     alice.write("user:5", value, () -> store.put("user:5", value));
 *     alice.read("user:5", () -> store.get("user:5"));
 * }
 * </pre>
 *
 * Any number of threads share a recorder. Each event is one line that is appended at once, so a crash of the test loses at most the line
 * that was being written. Each run has a log of its own. Its first line, {@code ["order","time"]}, says that its lines stand in the order
 * of time: a begin is written before the call is made, and an end after it was answered. Where calls were made before they are recorded,
 * that is not so: take the line out.
 */
public final class Recorder implements Closeable {
    private static final int MOST_LINE = 1_000_000, MOST_DEPTH = 50;
    private static final BigDecimal LARGEST = BigDecimal.TEN.pow(300);

    private final FileChannel file;
    private final Predicate<? super Throwable> fails;
    private final Set<String> names = new HashSet<>();
    private final Map<String, Call> pending = new HashMap<>();
    private long values;
    private boolean hasBegun;
    private IOException fault;

    /** A recorder for which every exception of a call leaves open whether it took effect. */
    public Recorder(Path log) throws IOException {
        this(log, error -> false);
    }

    /**
     * A recorder that writes a new log. {@code fails} says of an exception of a call whether it had no effect, for certain. Every other one
     * means that the call is lost: it may take effect later, or never. So are time-outs and broken connections.
     *
     * @throws java.nio.file.FileAlreadyExistsException where the log is there already
     */
    public Recorder(Path log, Predicate<? super Throwable> fails) throws IOException {
        this.file = FileChannel.open(log, StandardOpenOption.CREATE_NEW, StandardOpenOption.WRITE);
        this.fails = fails;
        try {
            append("[\"order\",\"time\"]");
        } catch (UncheckedIOException error) {
            file.close();
            throw error.getCause();
        }
    }

    /** The key holds this value before the first call. */
    public synchronized void start(String key, Object value) {
        if (hasBegun)
            throw new IllegalStateException("a call has begun: what keys hold at the start comes first");
        append(line("\"start\"," + text(key) + "," + json(value), ""));
    }

    /** A client, which makes one call at a time. A name is given to one client. */
    public synchronized Client client(String name) {
        text(name);
        if (!names.add(name))
            throw new IllegalArgumentException("the run has a client " + name);
        return new Client(new Name(name), "", () -> null);
    }

    @Override
    public synchronized void close() throws IOException {
        file.close();
    }

    /** What a call of a store does that gives nothing back. */
    @FunctionalInterface
    public interface Action {
        void make() throws Exception;
    }

    /** The name of a client, which changes: the first one, and the one that it has now. */
    private static final class Name {
        private final String first;
        private volatile String now;

        private Name(String first) {
            this.first = this.now = first;
        }
    }

    /**
     * A client. Each method records the begin, makes the call, and records how it ended: by {@code end} where it answered, by {@code fail}
     * or {@code lost} where it threw. The exception is thrown on. A call that returns before its answer came, as by a future, is none for
     * these methods: begin it by {@link #beginWrite} and its like, and end it where the answer comes.
     */
    public final class Client {
        private final Name name;
        private final String note;
        private final Supplier<?> endNote;

        private Client(Name name, String note, Supplier<?> endNote) {
            this.name = name;
            this.note = note;
            this.endNote = endNote;
        }

        /** The name that it has in the log: another one after each {@link #reconnected}. */
        public String name() {
            return name.now;
        }

        /**
         * The same client, whose calls have a note in the line of their begin: the server that is asked, or a request's id. The client on
         * which this is called stays as it is. The judge passes notes over. A note is a value of JSON: a text, a number, true or false, or a
         * list or a map of such, which may hold null too. Null by itself is no note.
         *
         * @throws IllegalArgumentException where the note is no such value; nothing is recorded
         */
        public Client withNote(Object note) {
            return new Client(name, noted(note), endNote);
        }

        /**
         * The same client, whose calls have a note in the line that ends them: what is known only then, as the server that answered. The
         * function is asked when the call ended. Where it throws, or gives no value of JSON, the end is recorded without a note, and the
         * exception is thrown on. Where the call itself threw, that is thrown on, and the function's is added to it as a suppressed one.
         */
        public Client withEndNote(Supplier<?> note) {
            return new Client(name, this.note, Objects.requireNonNull(note));
        }

        /** A value that nobody was given before. No two writes of a run write one value, also where one is tried again. */
        public String newValue() {
            synchronized (Recorder.this) {
                return name.first + "." + ++values;
            }
        }

        /**
         * From here on it is a new client in the log, since the store promises it nothing of what it saw before: after a new session or a
         * new connection to another replica. A call that is pending stays one of the old name.
         */
        public void reconnected() {
            synchronized (Recorder.this) {
                int number = 2;
                while (!names.add(name.first + "#" + number))
                    number++;
                name.now = name.first + "#" + number;
            }
        }

        /** Writes a value, which is new in the run. */
        public void write(String key, Object value, Action call) throws Exception {
            made(beginWrite(key, value), () -> {
                call.make();
                return true;
            });
        }

        /** Reads by a call that gives the value, or null where the key holds nothing. */
        public <T> T read(String key, Callable<T> call) throws Exception {
            Call read = beginRead(key);
            T found = asked(read, call);
            read.end(found);
            return found;
        }

        /** Deletes by a call that says whether there was something. Where there was nothing, the delete changed nothing. */
        public boolean delete(String key, Callable<Boolean> call) throws Exception {
            return made(beginDelete(key), call);
        }

        /**
         * Compares and sets, by a call that says whether the new value was written. It is recorded as a write, begun before the call: what
         * it compared with is not recorded as a read. Where the store refused, for certain, the write failed.
         */
        public boolean cas(String key, Object value, Callable<Boolean> call) throws Exception {
            return made(beginWrite(key, value), call);
        }

        /** A write that begins now, and ends when the answer came, as in a callback. */
        public Call beginWrite(String key, Object value) {
            return new Call(this, "[\"w\"," + text(key) + "," + json(value) + "]", false);
        }

        /** A read that begins now. */
        public Call beginRead(String key) {
            return new Call(this, "[\"r\"," + text(key) + "]", true);
        }

        /** A delete that begins now. */
        public Call beginDelete(String key) {
            return new Call(this, "[\"d\"," + text(key) + "]", false);
        }

        private boolean made(Call change, Callable<Boolean> call) throws Exception {
            boolean isDone = asked(change, () -> Objects.requireNonNull(call.call()));
            if (isDone)
                change.end();
            else
                change.fail();
            return isDone;
        }

        private <T> T asked(Call one, Callable<T> call) throws Exception {
            try {
                return call.call();
            } catch (Throwable error) {
                one.endBy(error);
                throw error;
            }
        }
    }

    /** A call that has begun, and ends once, in any thread. One that never ends stays pending: its client makes no more calls. */
    public final class Call {
        private final String name;
        private final boolean isRead;
        private volatile Supplier<?> endNote;

        private Call(Client client, String call, boolean isRead) {
            this.name = client.name();
            this.isRead = isRead;
            this.endNote = client.endNote;
            String line = line("\"begin\"," + text(name) + "," + call, client.note);
            synchronized (Recorder.this) {
                if (pending.containsKey(name))
                    throw new IllegalStateException("the client " + name + " has a call pending: it makes one at a time");
                append(line);
                pending.put(name, this);
                hasBegun = true;
            }
        }

        /**
         * This call, which now has a note for the line that ends it, in the place of the one that {@link Client#withEndNote} gives.
         *
         * @throws IllegalArgumentException where the note is no value of JSON; nothing is recorded, and the call goes on
         */
        public Call withNote(Object note) {
            noted(note);
            endNote = () -> note;
            return this;
        }

        /** The write or the delete was answered. */
        public void end() {
            if (isRead)
                throw new IllegalStateException("a read ends with what it found");
            ended("\"end\"," + text(name) + ",\"ok\"", null);
        }

        /** The read was answered: by a value, or by null where it found nothing. One that found what is no value is recorded as lost. */
        public void end(Object found) {
            if (!isRead)
                throw new IllegalStateException("only a read ends with a value");
            String event;
            try {
                event = "\"end\"," + text(name) + "," + (found == null ? "null" : json(found));
                line(event, "");
            } catch (IllegalArgumentException error) {
                lost(error);
                throw error;
            }
            ended(event, null);
        }

        /** The call had no effect, for certain. */
        public void fail() {
            fail(null);
        }

        /** No answer came, as after a time-out or where the connection broke: the call may take effect later, or never. */
        public void lost() {
            lost(null);
        }

        /** The call ended by an exception: it failed where the recorder's rule says so, and else it is lost. */
        public void endBy(Throwable error) {
            boolean isCertain = false;
            try {
                isCertain = fails.test(error);
            } finally {
                if (isCertain)
                    fail(error);
                else
                    lost(error);
            }
        }

        private void fail(Throwable error) {
            ended("\"fail\"," + text(name), error);
        }

        private void lost(Throwable error) {
            ended("\"lost\"," + text(name), error);
        }

        /** Records the end, without a note where that can't be had. Why not is thrown, or added to the exception that ended the call. */
        private void ended(String event, Throwable error) {
            String line = line(event, "");
            try {
                line = line(event, noted(endNote.get()));
            } catch (RuntimeException fault) {
                if (error == null)
                    throw fault;
                error.addSuppressed(fault);
            } finally {
                finish(line);
            }
        }

        private void finish(String line) {
            synchronized (Recorder.this) {
                if (!pending.remove(name, this))
                    throw new IllegalStateException("the call of " + name + " has ended: a call ends once");
                append(line);
            }
        }
    }

    /** The line of an event, which is what stands in its brackets, and its note. */
    private static String line(String event, String note) {
        String line = "[" + event + note + "]";
        if (line.length() > MOST_LINE)
            throw new IllegalArgumentException("a line of a log has at most 1,000,000 bytes: write a digest of the value or the note");
        return line;
    }

    /** Appends a line. After a fault the log takes no more: what it misses could be what explains a later read. */
    private void append(String line) {
        try {
            if (fault != null)
                throw fault;
            ByteBuffer bytes = ByteBuffer.wrap((line + "\n").getBytes(StandardCharsets.US_ASCII));
            while (bytes.hasRemaining())
                file.write(bytes);
        } catch (IOException error) {
            fault = error;
            throw new UncheckedIOException("the log can't be written", error);
        }
    }

    /** A value as JSON: a text, a whole number, or true or false. */
    private static String json(Object value) {
        if (value instanceof String)
            return text((String) value);
        boolean isWhole = value instanceof Long || value instanceof Integer || value instanceof Short || value instanceof Byte;
        if (isWhole || value instanceof Boolean)
            return value.toString();
        throw new IllegalArgumentException("a value is a text, a whole number, or true or false: write " + value + " as a text");
    }

    /** The note of an event, as it stands behind the rest; none where it is null. */
    private static String noted(Object note) {
        return note == null ? "" : "," + part(note, MOST_DEPTH);
    }

    /** A note, or a part of one, as JSON: with lists and maps in one another that are at most so deep. */
    private static String part(Object note, int room) {
        if (note == null || note instanceof Boolean)
            return String.valueOf(note);
        if (note instanceof String)
            return text((String) note);
        if (note instanceof Number)
            return number((Number) note);
        if (!(note instanceof List || note instanceof Map))
            throw new IllegalArgumentException("a note is a value of JSON: write the " + note.getClass().getName() + " as a text");
        if (room == 0)
            throw new IllegalArgumentException("lists and maps in a note are at most " + MOST_DEPTH + " deep");
        return note instanceof List ? list((List<?>) note, room - 1) : object((Map<?, ?>) note, room - 1);
    }

    private static String list(List<?> note, int room) {
        var found = new StringJoiner(",", "[", "]");
        for (Object one : note)
            found.add(part(one, room));
        return found.toString();
    }

    private static String object(Map<?, ?> note, int room) {
        var found = new StringJoiner(",", "{", "}");
        for (var one : note.entrySet()) {
            if (!(one.getKey() instanceof String))
                throw new IllegalArgumentException("a name in a note is a text: write " + one.getKey() + " as a text");
            found.add(text((String) one.getKey()) + ":" + part(one.getValue(), room));
        }
        return found.toString();
    }

    /** A number of a note as JSON. What has no decimal digits, as NaN, is none. */
    private static String number(Number note) {
        try {
            var exact = new BigDecimal(note.toString());
            if (exact.abs().compareTo(LARGEST) <= 0)
                return exact.toString();
        } catch (NumberFormatException noDigits) {
            throw new IllegalArgumentException("a number in a note is a number of JSON: write " + note + " as a text", noDigits);
        }
        throw new IllegalArgumentException("a number in a note is from -10^300 to 10^300: write another as a text");
    }

    /** A text as JSON. */
    private static String text(String name) {
        if (!StandardCharsets.UTF_8.newEncoder().canEncode(name))
            throw new IllegalArgumentException("a text has whole characters: half of a surrogate pair is none");
        var found = new StringBuilder("\"");
        for (char one : name.toCharArray())
            found.append(one < ' ' || one > '~' || one == '"' || one == '\\' ? String.format("\\u%04x", (int) one) : one);
        return found.append('"').toString();
    }
}
