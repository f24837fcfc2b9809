/** Records runs of replicated stores as logs of events, and judges them by causal consistency. */

/** A client or a key: a text, or a whole number from 0 to 2^64 - 1, which is a BigInt from 2^53 on. */
export type Name = string | number | bigint;

/** A value that a key can hold: a text, a boolean, or a whole number from -2^63 to 2^64 - 1, which is a BigInt from 2^53 on. */
export type Value = string | number | bigint | boolean;

export type Criterion = "cc" | "cm" | "ccv";

/** A value of JSON for the line of a begin, or a function that gives one for the line of the end, and is asked when the call ended. */
export type Note = unknown | (() => unknown);

/** Which errors of a call mean that it had no effect for certain. Every other error means that it may take effect later, or never. */
export type Fails = ErrorClass | ErrorClass[] | ((error: unknown) => boolean);
export type ErrorClass = abstract new (...words: never[]) => Error;

/** What a call says of its effect: null and undefined where that isn't known. */
export type Effect<T> = (answer: T) => boolean | null | undefined;

/** What a read gives: null and undefined where the key holds nothing. */
export type Found = Value | null | undefined;

export interface CallOptions {
    note?: Note;
}

export interface ClientOptions {
    fails?: Fails;
    /** The value that was written, for what a read returned, where a store answers in another type. It isn't asked about nothing. */
    answers?: (answer: any) => Found;
}

export interface RecorderOptions extends ClientOptions {
    /** The values that keys hold before the first call. */
    start?: Record<string, Value> | Iterable<readonly [Name, Value]>;
}

export interface RetryOptions extends CallOptions {
    /** Gives each try its value; `newValue` unless given. */
    makeValue?: () => Value;
    /** How many tries there are; 3 unless given. */
    tries?: number;
    /** How many milliseconds come before the next try, or a function of the number of tries so far. */
    pause?: number | ((tries: number) => number);
}

/**
 * Appends events to a log as they happen, each by one write. A log that is there already goes on: a torn last line is cut, and each call
 * that is pending is recorded as lost. A log without events gets the first line ["order","time"]: its lines stand in the order of time.
 * Where calls were made before they are recorded, that is not so: take the line out.
 *
 * Throws LogInUse where another recorder of this package writes the log, LogError where the log has a bad line, TypeError where the path is
 * no ordinary file, and what `fs.openSync` and `fs.writeSync` throw.
 */
export class Recorder {
    constructor(path: string | URL, options?: RecorderOptions);
    readonly path: string;
    /** The key holds this value before the first call. Throws after the first call has begun. */
    start(key: Name, value: Value): void;
    /** A client, which makes one call at a time. Two of one name are one client. */
    client(name: Name, options?: ClientOptions): Client;
    /** Closes the log. A call that is pending stays so: whether it took effect is open. */
    close(): void;
}

/**
 * A client of a recorder. Each method that makes a call records the begin, makes the call, records how it ended, and returns what the call
 * returned. Where that is a promise, the call ends when it is settled. An error of the call is recorded as `fail` or `lost`, and thrown on.
 *
 * Before the call is made, it throws TypeError or RangeError where a key, a value or a note has no form, and Error where a call of this
 * client is pending, or the client or its recorder is closed: then nothing was recorded.
 */
export class Client {
    private constructor();
    readonly name: Name;
    /** A value that no client of the run was given before, "alice.17" for alice: also after the log was opened again. */
    newValue(): string;
    /** Writes a value, which should be new in the run, by this call of the store. */
    write<T>(key: Name, value: Value, call: () => T, options?: CallOptions): T;
    /**
     * Writes a value by a call that writes only if the key holds what it expects. `done` says of its answer whether it wrote; its truth
     * unless given. Where it did not, nothing was changed on any replica.
     */
    compareAndSet<T>(key: Name, value: Value, call: () => T, options?: CallOptions & { done?: Effect<Awaited<T>> }): T;
    /** Reads by this call, which gives the value, or null or undefined where the key holds nothing. */
    read<T>(key: Name, call: () => T, options?: CallOptions): T;
    /**
     * Deletes by this call. Where `found` is false of its answer, the key held nothing and nothing was changed on any replica. A store that
     * leaves a tombstone did delete: then leave `found` out.
     */
    delete<T>(key: Name, call: () => T, options?: CallOptions & { found?: Effect<Awaited<T>> }): T;
    /**
     * Writes by calls that are tried up to so many times, each with a new value. A try that threw is lost, and the next one is a write of
     * its own. An error that means that nothing took effect is thrown at once, and so is that of the last try.
     */
    retry<T>(key: Name, call: (value: any) => T, options?: RetryOptions): Promise<Awaited<T>>;
    /** Records that a write begins, before the store is called. Its Call is ended when the answer came. */
    beginWrite(key: Name, value: Value, options?: CallOptions): Call;
    beginRead(key: Name, options?: CallOptions): Call;
    beginDelete(key: Name, options?: CallOptions): Call;
    /** The client that goes on over a new connection, with a name that no client of the log has: "alice#2" for alice. */
    reconnected(): Client;
    /** Records a call that is pending as lost. Afterwards the client records nothing. */
    leave(): void;
}

/** A call that has begun. It ends once, and throws where it has ended. */
export class Call {
    private constructor();
    readonly name: Name;
    readonly outcome: "end" | "fail" | "lost" | null;
    /** The answer of a write or a delete came. */
    end(options?: CallOptions): void;
    /** The answer of a read came: what it found, null or undefined for nothing. */
    end(found: Found, options?: CallOptions): void;
    /** The call had no effect, for certain. */
    fail(options?: CallOptions): void;
    /** No answer came: the call may take effect later, or never. */
    lost(options?: CallOptions): void;
    /** Ends a write or a delete by its answer, of which `done` says whether it took effect. */
    settle<T>(answer: T, done?: Effect<T>): void;
    /** Ends the call by an error of the store: `fail` where the client's rule says so, else `lost`. Nothing, where it has ended. */
    endBy(error: unknown): void;
}

/** What is said of one criterion; of a no the kind of the pattern that shows it. */
export class Line {
    private constructor();
    readonly criterion: Criterion;
    readonly answer: "yes" | "no" | "unknown";
    readonly kind: string | null;
    readonly text: string;
    toString(): string;
}

/** The lines about a run. */
export class Verdict {
    private constructor();
    readonly cc: Line;
    readonly cm: Line;
    readonly ccv: Line;
    readonly lines: readonly Line[];
    /** What `explain` says of the run in words. It is worked out when it is read first. */
    readonly explanation: string;
    /** Whether these criteria are met, or all three where none is named. An unknown is not met. */
    meets(...criteria: Criterion[]): boolean;
    /** The lines of these criteria, or of all three where none is named, that are no yes. */
    unmet(...criteria: Criterion[]): Line[];
    toString(): string;
}

/**
 * Judges a log of events or a history: a text, or its bytes. The form is found by the first text in it.
 *
 * Throws Refused where the input is neither, and RangeError where memory runs out. It keeps this thread busy until it has answered.
 */
export function judge(text: string | Uint8Array): Verdict;

/** Says why each criterion is met or not: in words, as JSON, as a picture in SVG, or as a page in HTML. It throws what `judge` throws. */
export function explain(text: string | Uint8Array, form?: "words" | "json" | "picture" | "page"): string;

export interface AssertOptions {
    /** How many reads have to be answered; 1 unless given. */
    atLeastReads?: number;
    /** Where the page of the explanation is written, before it throws. */
    page?: string | URL;
}

/**
 * Has a log judged, one of a path or of a recorder, and throws AssertionError with the explanation where one of these criteria is no yes,
 * or where too few reads were answered. Where no criterion is named, all three have to be met. It throws besides what `judge` throws.
 */
export function assertMet(log: string | URL | Recorder, criteria?: Criterion[], options?: AssertOptions): Verdict;

/** The judge refuses an input: the message says what is wrong with it, and where. */
export class Refused extends Error {}

/** A line of a log that a recorder can't go on with: its number, from 1, and what is wrong with it. */
export class LogError extends Error {
    readonly line: number;
    readonly what: string;
    readonly path: string | undefined;
}

/** Another recorder writes the log. */
export class LogInUse extends Error {
    readonly path: string;
}
