// A lock beside a log: a file with the number of the process that writes the log. A lock whose process has ended counts for nothing.

import fs from "node:fs";
import os from "node:os";

const HAS_NO_LINKS = ["EPERM", "ENOSYS", "ENOTSUP", "EOPNOTSUPP"];

/** Another recorder writes the log. */
export class LogInUse extends Error {
    constructor(path, lock, holder) {
        super(`another recorder writes ${path}: process ${holder}. Where that is none, remove ${lock}`);
        this.name = "LogInUse";
        this.path = path;
    }
}

/** A lock that this process holds until `release`. Throws LogInUse where another recorder holds it. */
export class LockFile {
    constructor(path) {
        this.path = `${path}.lock`;
        this.text = `${process.pid} ${startOf(process.pid)} ${os.hostname()}\n`;
        const part = `${this.path}.${process.pid}.${Math.random().toString(36).slice(2)}`;
        fs.writeFileSync(part, this.text, { flag: "wx" });
        try {
            // A link appears whole, and only where there is none.
            while (!linked(part, this.path)) this.#take(path);
        } finally {
            fs.rmSync(part, { force: true });
        }
    }

    /** Removes a lock whose process has ended; throws where it has not. */
    #take(path) {
        const found = textOf(this.path);
        if (found === null) return;
        if (isHeld(found)) throw new LogInUse(path, this.path, found.split(" ")[0]);
        const aside = `${this.path}.${process.pid}.ended`;
        if (textOf(this.path) !== found) return;
        try {
            fs.renameSync(this.path, aside);
        } catch (error) {
            if (error.code !== "ENOENT") throw error;
            return;
        }
        // (where another recorder took it just before, it is given back)
        if (textOf(aside) !== found) linked(aside, this.path);
        fs.rmSync(aside, { force: true });
    }

    release() {
        if (textOf(this.path) === this.text) fs.rmSync(this.path, { force: true });
    }
}

/** Whether a file gets a second name, or, where a file system has no such names, a copy: only where nothing has that name. */
function linked(from, to) {
    for (const give of [() => fs.linkSync(from, to), () => fs.copyFileSync(from, to, fs.constants.COPYFILE_EXCL)])
        try {
            give();
            return true;
        } catch (error) {
            if (error.code === "EEXIST") return false;
            if (!HAS_NO_LINKS.includes(error.code)) throw error;
        }
    throw new Error(`${to} can't be written`);
}

function textOf(path) {
    try {
        return fs.readFileSync(path, "utf8");
    } catch (error) {
        if (error.code === "ENOENT") return null;
        throw error;
    }
}

/** Whether the process that a lock names may still run. One on another machine counts as running. */
function isHeld(text) {
    const [pid, start, host] = text.trim().split(" ");
    if (host !== os.hostname() || !/^[1-9][0-9]*$/.test(pid)) return true;
    try {
        process.kill(Number(pid), 0);
    } catch (error) {
        if (error.code === "ESRCH") return false;
    }
    return start === "-" || startOf(pid) === "-" || startOf(pid) === start;
}

/** When a process started, so that a number that was given anew is told from the old one; "-" where that isn't known. */
function startOf(pid) {
    try {
        return fs.readFileSync(`/proc/${pid}/stat`, "utf8").replace(/^.*\)/s, "").trim().split(" ")[19] ?? "-";
    } catch {
        return "-";
    }
}
