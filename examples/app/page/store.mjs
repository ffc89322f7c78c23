// What this device keeps of a list, in IndexedDB: its secret and number there, its state, and what the server has.
//
// The state that is kept is the one that counts. Each change is a transaction that reads it, does operations, and keeps it; a browser
// runs these one after the other, whichever tab they come from. So several tabs are one replica, no time is used twice, and only what
// is kept is ever sent.
import { SharedList } from "./shared_list.mjs";

const answer = (request) =>
    new Promise((done, fail) => {
        request.onsuccess = () => done(request.result);
        request.onerror = () => fail(request.error);
    });
const ended = (transaction) =>
    new Promise((done, fail) => {
        transaction.oncomplete = () => done();
        transaction.onabort = () => fail(transaction.error);
    });

function database() {
    const request = indexedDB.open("lists", 1);
    request.onupgradeneeded = () => ["device", "state", "server"].forEach((name) => request.result.createObjectStore(name));
    return answer(request);
}

export function randomSecret() {
    const bytes = crypto.getRandomValues(new Uint8Array(18));
    return btoa(String.fromCharCode(...bytes)).replaceAll("+", "-").replaceAll("/", "_");
}

// The keys of the lists that this device has, each with its list.
export async function allLists() {
    const states = (await database()).transaction("state").objectStore("state");
    const [keys, texts] = await Promise.all([answer(states.getAllKeys()), answer(states.getAll())]);
    return keys.map((key, at) => [key, SharedList.fromState(texts[at])]);
}

export class Store {
    #base;
    #channel;

    constructor(base, key) {
        this.key = key;
        this.#base = base;
        // what the other tabs of this device do with the list
        this.#channel = new BroadcastChannel(`list ${key}`);
        this.#channel.onmessage = ({ data }) => dispatchEvent(new CustomEvent(data.what, { detail: data.detail }));
    }

    static async open(key) {
        return new Store(await database(), key);
    }

    // Tells all tabs something of the list.
    tell(what, detail) {
        dispatchEvent(new CustomEvent(what, { detail }));
        this.#channel.postMessage({ what, detail });
    }

    #transaction(...names) {
        // strict: it ends when it is on the disk
        const transaction = this.#base.transaction(names, "readwrite", { durability: "strict" });
        return { stores: names.map((name) => transaction.objectStore(name)), ended: ended(transaction) };
    }

    // This device in the list: a secret of its own, from before the server is asked, and a number once that has answered.
    async device() {
        const { stores: [devices], ended } = this.#transaction("device");
        let kept = await answer(devices.get(this.key));
        if (!kept) devices.put((kept = { secret: randomSecret() }), this.key);
        await ended;
        return kept;
    }

    // Begins with a number, or goes on with another one: as a new replica, which merges what this device had.
    async begin(number) {
        const { stores: [devices, states, servers], ended } = this.#transaction("device", "state", "server");
        const [kept, text] = [await answer(devices.get(this.key)), await answer(states.get(this.key))];
        const list = new SharedList(number);
        if (text) list.merge(SharedList.fromState(text));
        devices.put({ ...kept, number }, this.key);
        states.put(list.state(), this.key);
        servers.put({ mark: "", known: new SharedList(number).state(), given: number }, this.key);
        await ended;
        this.tell("changed");
    }

    async list() {
        const text = await answer(this.#base.transaction("state").objectStore("state").get(this.key));
        return text && SharedList.fromState(text);
    }

    // Does the operations that `plan` gives for the newest list: [operation, values] each. All are kept, or none.
    async change(plan) {
        const { stores: [states], ended } = this.#transaction("state");
        const list = SharedList.fromState(await answer(states.get(this.key)));
        const calls = plan(list);
        for (const [operation, ...values] of calls) list[operation](...values);
        if (calls.length) states.put(list.state(), this.key);
        await ended;
        this.tell("kept", { calls, replica: list.replica, clock: list.clock });
        this.tell("changed");
    }

    // What the server lacks, up to where this device has what the server has, and up to which number all were given out.
    async news() {
        const { stores: [states, servers] } = this.#transaction("state", "server");
        const [text, { mark, known, given }] = [await answer(states.get(this.key)), await answer(servers.get(this.key))];
        const [list, there] = [SharedList.fromState(text), SharedList.fromState(known)];
        const packet = list.difference(there).state();
        return { mark, packet: there.merge(list).any ? packet : "", given };
    }

    // Merges what the server answered to a packet. `whole` says that it knew nothing of this device and left the packet aside.
    async learn(sent, { mark, packet, whole, given }) {
        const { stores: [states, servers], ended } = this.#transaction("state", "server");
        const [list, { known, given: before }] = [SharedList.fromState(await answer(states.get(this.key))), await answer(servers.get(this.key))];
        const there = whole ? new SharedList(list.replica) : SharedList.fromState(known);
        if (sent && !whole) there.merge(SharedList.fromState(sent));
        let changed = false;
        if (packet) {
            const theirs = SharedList.fromState(packet);
            there.merge(theirs);
            changed = list.merge(theirs).any;
            states.put(list.state(), this.key);
        }
        if (sent || packet || whole || given > before) servers.put({ mark, known: there.state(), given }, this.key);
        await ended;
        if (changed) this.tell("changed");
    }
}
