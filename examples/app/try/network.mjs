// What lies between the pages and the server: it doubles calls, makes them again late, and loses some of them or their answers.
import { spawn } from "node:child_process";
import { createServer, request } from "node:http";
import { once } from "node:events";
import { fileURLToPath } from "node:url";

const SERVER = fileURLToPath(new URL("../server.py", import.meta.url));

// Numbers from 0 to below 1, the same ones for the same seed.
export function seeded(seed) {
    let state = seed >>> 0;
    return () => {
        state = (state + 0x6d2b79f5) >>> 0;
        let it = Math.imul(state ^ (state >>> 15), 1 | state);
        it = (it + Math.imul(it ^ (it >>> 7), 61 | it)) ^ it;
        return ((it ^ (it >>> 14)) >>> 0) / 2 ** 32;
    };
}

// The server as a process, which can be killed at any moment.
export class Server {
    constructor(python, words) {
        Object.assign(this, { python, words, port: 0, errors: "" });
    }
    async start() {
        this.process = spawn(this.python, ["-B", SERVER, "--port", "0", ...this.words], { stdio: ["ignore", "pipe", "pipe"] });
        this.process.stderr.on("data", (part) => (this.errors += part));
        const [line] = await Promise.race([once(this.process.stdout, "data"), once(this.process, "exit").then(() => Promise.reject(new Error(`the server doesn't start: ${this.errors}`)))]);
        this.port = Number(new URL(String(line).trim()).port);
    }
    async kill() {
        const ended = once(this.process, "exit");
        this.process.kill("SIGKILL");
        await ended;
    }
}

export class Network {
    constructor(server, random) {
        Object.assign(this, { server, random, wild: false, bytes: { up: 0, down: 0 }, told: { calls: 0, doubled: 0, late: 0, lost: 0, unanswered: 0 } });
        this.proxy = createServer((asked, answer) => this.pass(asked, answer).catch(() => answer.destroy()));
    }
    async open() {
        this.proxy.listen(0, "127.0.0.1");
        await once(this.proxy, "listening");
        return `http://localhost:${this.proxy.address().port}`;
    }
    close() {
        this.proxy.closeAllConnections();
        this.proxy.close();
    }
    chance(share, what) {
        const it = this.wild && this.random() < share;
        if (it) this.told[what] += 1;
        return it;
    }
    async pass(asked, answer) {
        const parts = [];
        for await (const part of asked) parts.push(part);
        const body = Buffer.concat(parts);
        if (asked.method === "GET") return this.relay(asked, body, answer);
        this.told.calls += 1;
        if (this.chance(0.1, "lost")) return answer.destroy();
        if (this.chance(0.4, "doubled")) this.call(asked, body).catch(() => {});
        if (this.chance(0.3, "late")) setTimeout(() => this.call(asked, body).catch(() => {}), 100 + 1500 * this.random());
        if (!this.chance(0.1, "unanswered")) return this.relay(asked, body, answer);
        await this.call(asked, body).catch(() => {});
        answer.destroy();
    }
    async relay(asked, body, answer) {
        const got = await this.call(asked, body, answer);
        answer.writeHead(got.status, got.headers);
        answer.end(got.body);
    }
    // Makes a call; whoever asked may go away, and then so does it.
    call({ method, url, headers }, body, answer) {
        return new Promise((done, fail) => {
            const made = request({ host: "127.0.0.1", port: this.server.port, method, path: url, headers, agent: false }, (got) => {
                const parts = [];
                got.on("data", (part) => parts.push(part));
                got.on("error", fail);
                got.on("end", () => {
                    const answered = Buffer.concat(parts);
                    if (method === "POST") this.bytes = { up: this.bytes.up + body.length, down: this.bytes.down + answered.length };
                    done({ status: got.statusCode, headers: got.headers, body: answered });
                });
            });
            made.on("error", fail);
            answer?.on("close", () => made.destroy());
            made.end(body);
        });
    }
}
