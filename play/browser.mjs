// A headless Chromium, driven over its debugging pipe.
import { spawn } from "node:child_process";
import { mkdtempSync, rmSync } from "node:fs";
import { tmpdir } from "node:os";
import { join } from "node:path";

const WORDS = ["--headless", "--no-sandbox", "--disable-gpu", "--remote-debugging-pipe", "--window-size=1400,1500"];
export const pause = (milliseconds) => new Promise((done) => setTimeout(done, milliseconds));

export class Browser {
    constructor(program, ...words) {
        this.profile = mkdtempSync(join(tmpdir(), "katara-"));
        this.process = spawn(program, [...WORDS, ...words, `--user-data-dir=${this.profile}`, "about:blank"], { stdio: ["ignore", "ignore", "ignore", "pipe", "pipe"] });
        this.waiting = new Map();
        this.listeners = [];
        this.sent = 0;
        const ended = (why) => {
            for (const { fail, method } of this.waiting.values()) fail(new Error(`${method}: the browser ended (${why})`));
            this.waiting.clear();
        };
        this.process.once("exit", (status, signal) => ended(signal ?? status));
        this.process.once("error", (error) => ended(error.message));
        this.process.stdio[3]?.on("error", () => {});
        let rest = "";
        this.process.stdio[4].setEncoding("utf8").on("data", (part) => {
            const messages = (rest + part).split("\0");
            rest = messages.pop();
            messages.forEach((message) => this.take(JSON.parse(message)));
        });
    }
    take(message) {
        if (!this.waiting.has(message.id)) return this.listeners.forEach((listener) => listener(message));
        const { done, fail, method } = this.waiting.get(message.id);
        this.waiting.delete(message.id);
        if (message.error) fail(new Error(`${method}: ${message.error.message}`));
        else done(message.result);
    }
    send(method, params = {}, sessionId = undefined) {
        const id = (this.sent += 1);
        return new Promise((done, fail) => {
            this.waiting.set(id, { done, fail, method });
            this.process.stdio[3].write(`${JSON.stringify({ id, method, params, sessionId })}\0`);
        });
    }
    // Opens a page, after some calls of its session: [method, parameters] each.
    open(url, ...before) {
        return this.openIn(undefined, url, ...before);
    }
    // The same in a context, which `Target.createBrowserContext` makes: what pages keep there, those of no other one see.
    async openIn(browserContextId, url, ...before) {
        const { targetId } = await this.send("Target.createTarget", { url: "about:blank", browserContextId });
        const { sessionId } = await this.send("Target.attachToTarget", { targetId, flatten: true });
        const page = new Page(this, sessionId, targetId);
        for (const [method, params] of [["Page.enable"], ["Runtime.enable"], ["Network.enable"], ...before]) await page.send(method, params);
        await page.send("Page.navigate", { url });
        return page;
    }
    async close() {
        const ended = new Promise((done) => this.process.once("exit", done));
        this.process.kill();
        await ended;
        // what it started may write for another moment
        for (let tries = 0; tries < 50; tries += 1) {
            try {
                return rmSync(this.profile, { recursive: true, force: true });
            } catch {
                await pause(100);
            }
        }
    }
}

class Page {
    constructor(browser, session, target) {
        Object.assign(this, { browser, session, target, faults: [], requests: [], patience: 300_000 });
        browser.listeners.push(({ sessionId, method, params }) => {
            if (sessionId !== session) return;
            if (method === "Runtime.exceptionThrown") this.faults.push(params.exceptionDetails.exception?.description ?? params.exceptionDetails.text);
            if (method === "Network.requestWillBeSent") this.requests.push(params.request.url);
        });
    }
    send(method, params) {
        return this.browser.send(method, params, this.session);
    }
    // the value of a function that is called in the page with these arguments, which are copied
    async ask(what, ...words) {
        const expression = `(${what})(${words.map((word) => JSON.stringify(word)).join(", ")})`;
        const { result, exceptionDetails } = await this.send("Runtime.evaluate", { expression, awaitPromise: true, returnByValue: true });
        if (exceptionDetails) throw new Error(exceptionDetails.exception?.description ?? exceptionDetails.text);
        return result.value;
    }
    // waits until such a function answers true; whether it did
    async until(what, ...words) {
        for (const end = Date.now() + this.patience; Date.now() < end; await pause(20)) if (await this.ask(what, ...words).catch(() => false)) return true;
        return false;
    }
    async key(key, code, modifiers = 0) {
        const both = { key, code: key, windowsVirtualKeyCode: code, modifiers };
        await this.send("Input.dispatchKeyEvent", { type: "rawKeyDown", ...both });
        await this.send("Input.dispatchKeyEvent", { type: "keyUp", ...both });
    }
    write(text) {
        return this.send("Input.insertText", { text });
    }
    async picture() {
        await this.send("Emulation.setScrollbarsHidden", { hidden: true });
        const { data } = await this.send("Page.captureScreenshot", { format: "png", captureBeyondViewport: true });
        return Buffer.from(data, "base64");
    }
}
