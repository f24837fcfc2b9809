// A real store end to end: redis on the loopback, by Debian's node-redis, as a primary and a replica that lags behind.

import assert from "node:assert/strict";
import { spawn, spawnSync } from "node:child_process";
import fs from "node:fs";
import { createRequire } from "node:module";
import net from "node:net";
import test from "node:test";

import { Recorder, assertMet, judge } from "causal-judge";
import { linesOf, room } from "./support.mjs";

const KEYS = ["a", "b", "c"];
const ROUNDS = 40;

/** The driver, where it is there: among those that NODE_PATH names, as Debian's in /usr/share/nodejs. */
function driver() {
    try {
        return createRequire(import.meta.url)("redis");
    } catch (error) {
        if (error.code !== "MODULE_NOT_FOUND") throw error;
        return null;
    }
}

const redis = driver();
const hasServer = spawnSync("redis-server", ["--version"]).status === 0;
const lack = !(redis && hasServer) && "redis is missing: apt-get install redis-server node-redis";

const freePort = () =>
    new Promise((resolve) => {
        const server = net.createServer().listen(0, "127.0.0.1", () => {
            const { port } = server.address();
            server.close(() => resolve(port));
        });
    });

/** A server that keeps nothing, and its port. */
async function served(t, place, name, ...words) {
    const port = await freePort();
    fs.mkdirSync(place(name));
    const common = ["--port", port, "--bind", "127.0.0.1", "--dir", place(name), "--save", "", "--appendonly", "no", "--daemonize", "no"];
    const server = spawn("redis-server", [...common, ...words].map(String), { stdio: "ignore" });
    t.after(() => server.kill("SIGKILL"));
    return port;
}

/** A connection, once the server answers. It does not send a command again by itself. */
async function connected(t, port) {
    const client = redis.createClient({ socket: { host: "127.0.0.1", port, reconnectStrategy: (tries) => (tries > 100 ? false : 50) } });
    client.on("error", () => {});
    t.after(() => client.disconnect().catch(() => {}));
    await client.connect();
    return client;
}

/** A client of a log, which writes over one connection and reads over another. */
async function play(client, writes, reads, seed) {
    let drawn = seed;
    const draw = (count) => ((drawn = (Math.imul(drawn, 1103515245) + 12345) >>> 0) >>> 16) % count;
    for (let round = 0; round < ROUNDS; round++) {
        const key = KEYS[draw(KEYS.length)];
        const value = client.newValue();
        if (draw(2)) await client.write(key, value, () => writes.set(key, value), { note: { round } });
        else if (draw(8)) await client.read(key, () => reads.get(key));
        else await client.delete(key, () => writes.del(key));
    }
}

test("clients of one server", { skip: lack }, async (t) => {
    const place = room(t);
    const port = await served(t, place, "primary");
    const recorder = new Recorder(place());
    await Promise.all(
        ["alice", "bob", "carol"].map(async (name, seed) => {
            const connection = await connected(t, port);
            await play(recorder.client(name), connection, connection, seed + 1);
        }),
    );
    recorder.close();
    assert.equal(assertMet(place(), ["cc", "cm", "ccv"], { atLeastReads: 20 }).meets(), true);
    assert.equal(linesOf(place()).length, 2 * 3 * ROUNDS);
});

test("reads at a replica that lags behind", { skip: lack }, async (t) => {
    const place = room(t);
    const port = await served(t, place, "primary");
    const primary = await connected(t, port);
    const lagging = await connected(t, await served(t, place, "replica"));
    await lagging.sendCommand(["REPLICAOF", "127.0.0.1", String(port)]);
    const recorder = new Recorder(place());
    const alice = recorder.client("alice");
    await alice.write("first", alice.newValue(), () => primary.set("first", "alice.1"));
    while ((await lagging.get("first")) !== "alice.1") await new Promise((resolve) => setTimeout(resolve, 20));
    await lagging.sendCommand(["REPLICAOF", "NO", "ONE"]);
    await alice.write("second", alice.newValue(), () => primary.set("second", "alice.2"));
    assert.equal(await alice.read("second", () => lagging.get("second")), null);
    recorder.close();
    assert.throws(() => assertMet(place(), ["cc"]), /cc no WriteCOInitRead[^]*This breaks read your writes/);
});

test("a server that goes: what was not answered is lost", { skip: lack }, async (t) => {
    const place = room(t);
    const port = await served(t, place, "primary");
    const connection = await connected(t, port);
    const other = await connected(t, port);
    const recorder = new Recorder(place());
    const alice = recorder.client("alice");
    await alice.write("x", alice.newValue(), () => connection.set("x", "alice.1"));
    await other.sendCommand(["CLIENT", "PAUSE", "60000", "ALL"]);
    const waiting = alice.write("x", alice.newValue(), () => connection.set("x", "alice.2"));
    setTimeout(() => connection.disconnect(), 100);
    await assert.rejects(waiting);
    recorder.close();
    assert.deepEqual(
        linesOf(place()).map(([word]) => word),
        ["begin", "end", "begin", "lost"],
    );
    assert.equal(judge(fs.readFileSync(place())).meets(), true);
});
