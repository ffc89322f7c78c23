// A device: a context of the browser, with pages that are used as people use them.
import { pause } from "../../../play/browser.mjs";

const OFFLINE = { latency: 0, downloadThroughput: -1, uploadThroughput: -1 };
// tells each change that is kept
const LISTENING = `addEventListener("kept", ({ detail }) => toTest(JSON.stringify(detail, (_, it) => (typeof it === "bigint" ? Number(it) : it))))`;

// in the page: asks for a thing
export function ask(text) {
    document.getElementById("want").value = text;
    document.querySelector("#adding button").click();
    return true;
}

export class Device {
    constructor(browser, context) {
        // what was kept, by its last time, and how many changes there were
        Object.assign(this, { browser, context, kept: new Map(), changes: 0, isOffline: false });
    }
    static async of(browser) {
        return new Device(browser, (await browser.send("Target.createBrowserContext")).browserContextId);
    }
    // Opens a page, which then is the one that is used.
    async open(url, ...before) {
        const page = await this.browser.openIn(this.context, "about:blank", ["Inspector.enable"], ["Runtime.addBinding", { name: "toTest" }], ["Page.addScriptToEvaluateOnNewDocument", { source: LISTENING }], ...before);
        this.browser.listeners.push(({ sessionId, method, params }) => {
            if (sessionId !== page.session || method !== "Runtime.bindingCalled") return;
            const { calls, replica, clock } = JSON.parse(params.payload);
            this.number = replica;
            // each tab tells it
            if (calls.length === 0 || !this.kept.has(clock)) this.changes += 1;
            if (calls.length) this.kept.set(clock, calls);
        });
        this.page = page;
        page.patience = 60_000;
        await this.offline(this.isOffline);
        await page.send("Emulation.setFocusEmulationEnabled", { enabled: true });
        await page.send("Page.navigate", { url });
        return page;
    }
    // Ends the process of the page, as a crash does.
    async crash() {
        const crashed = new Promise((done) => this.browser.listeners.push(({ sessionId, method }) => sessionId === this.page.session && method === "Inspector.targetCrashed" && done()));
        this.page.send("Page.crash").catch(() => {});
        await crashed;
    }
    ready() {
        return this.page.until(() => document.body?.dataset.ready === "yes");
    }
    offline(isOffline) {
        this.isOffline = isOffline;
        return this.page.send("Network.emulateNetworkConditions", { offline: isOffline, ...OFFLINE });
    }
    // Does something that makes one change, if it answers that it did, and waits until that is kept. Whether it did.
    async change(what, ...words) {
        const before = this.changes;
        if (!(await this.page.ask(what, ...words))) return false;
        for (const end = Date.now() + this.page.patience; this.changes === before; await pause(5)) if (Date.now() > end) throw new Error(`no change is kept: ${what} ${words}`);
        return true;
    }
    want(text) {
        return this.change(ask, text);
    }
    retitle(text) {
        return this.change((it) => {
            const title = document.getElementById("title");
            title.value = it;
            return title.dispatchEvent(new Event("change"));
        }, text);
    }
    // Presses a part of a thing's row. A thing that isn't there is asked for.
    async press(part, text) {
        const pressed = (it, which) => {
            const row = [...document.querySelectorAll("#list li")].find((one) => one.querySelector(".text").textContent === it);
            row?.querySelector(which).click();
            return Boolean(row);
        };
        return (await this.change(pressed, text, { more: "button:last-child", less: "button", tick: "input" }[part])) || this.want(text);
    }
    removeTicked() {
        return this.change(() => {
            const isThere = document.getElementById("clear").checkVisibility();
            document.getElementById("clear").click();
            return isThere;
        });
    }
    // what the page shows
    shown() {
        return this.page.ask(() => ({
            title: document.getElementById("title").value,
            things: [...document.querySelectorAll("#list li")].map((row) => [row.querySelector(".text").textContent, Number(row.querySelector(".amount").textContent), row.querySelector("input").checked]),
        }));
    }
    status() {
        return this.page.ask(() => document.getElementById("status").dataset.status);
    }
    // the state that is kept
    state() {
        return this.page.ask(async () => new Map(await (await import("/store.mjs")).allLists()).get(location.hash.slice(1)).state());
    }
}
