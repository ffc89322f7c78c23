// Talks with the server: sends what it lacks, and merges what it has; then waits there until something is new.
//
// Any call may be lost, or come twice: it is made again. If several tabs have the list open, the one that holds the lock talks.

const pause = (milliseconds) => new Promise((done) => setTimeout(done, milliseconds));

class Refusal extends Error {
    constructor(status, reason) {
        super(reason);
        this.status = status;
    }
}

async function call(name, asked, signal) {
    const answered = await fetch(name, { method: "POST", body: JSON.stringify(asked), signal });
    const said = await answered.json();
    if (!answered.ok) throw new Refusal(answered.status, said.error);
    return said;
}

// Gets this device's number, once. With `make` the list is made if the server has none with this key.
export async function join(store, make = false) {
    const { secret, number } = await store.device();
    const asked = { key: store.key, device: secret, make, given: number ? (await store.news()).given : 0 };
    try {
        const given = await call("join", { ...asked, number });
        if (given.number !== number) await store.begin(given.number);
    } catch (refusal) {
        if (refusal.status !== 409) throw refusal;
        // the server was set back, and gave this device's number to another one
        await store.begin((await call("join", asked)).number);
    }
}

// One call. If there is nothing to send and it `waits`, it ends when something is new, here or there; else at once.
async function round(store, waits) {
    const stop = new AbortController();
    const changed = () => stop.abort();
    const slow = waits && setTimeout(() => store.tell("status", "sending"), 1000);
    addEventListener("kept", changed);
    try {
        const { mark, packet, given } = await store.news();
        // what is on its way isn't called back
        if (packet) removeEventListener("kept", changed);
        else clearTimeout(slow);
        const { secret } = await store.device();
        const said = await call("sync", { key: store.key, device: secret, mark, packet, given, wait: waits && !packet }, stop.signal);
        await store.learn(packet, said);
        store.tell("status", "sent");
        return Boolean(packet || said.packet || said.whole);
    } finally {
        clearTimeout(slow);
        removeEventListener("kept", changed);
    }
}

// What people are told.
async function failed(store, error) {
    if (error.name === "QuotaExceededError") store.tell("status", "full");
    else if (!(error instanceof Refusal)) store.tell("status", "offline");
    else if (error.status !== 403) store.tell("status", `refused: ${error.message}`);
    // a server that lost the list, or this device of it, gets both back
    else await join(store, true).catch((again) => failed(store, again.status === 403 ? new Refusal(0, again.message) : again));
}

export function talk(store) {
    return navigator.locks.request(`talk ${store.key}`, async () => {
        for (let failures = 0; ; ) {
            const began = Date.now();
            try {
                const grew = await round(store, failures === 0);
                // a server that has no room for calls that wait answers at once
                if (!grew && failures === 0 && Date.now() - began < 1000) await pause(1000);
                failures = 0;
            } catch (error) {
                if (error.name === "AbortError") continue;
                failures += 1;
                await failed(store, error);
                await somethingHappens(Math.min(8_000, 500 * 2 ** failures));
            }
        }
    });
}

// Waits for some time; for less if the network is back, or something was done.
function somethingHappens(milliseconds) {
    return new Promise((done) => {
        const stop = new AbortController();
        const go = () => {
            stop.abort();
            done();
        };
        for (const what of ["online", "kept"]) addEventListener(what, go, { signal: stop.signal });
        setTimeout(go, milliseconds);
    });
}
