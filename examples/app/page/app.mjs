// The page: the lists of this device, or the one whose key is in the address. What comes after # is never sent to a server.
import { isTooLong, nameOf } from "./names.mjs";
import { allLists, randomSecret, Store } from "./store.mjs";
import { join, talk } from "./sync.mjs";
import { contentOf, drawHome, drawList, drawProblem, drawStatus } from "./view.mjs";

const at = (id) => document.getElementById(id);
const key = location.hash.slice(1);
addEventListener("hashchange", () => location.reload());
// without it the page works too, but doesn't open without a network
navigator.serviceWorker?.register("service.js").catch(() => {});

async function home() {
    at("home").hidden = false;
    at("new").onclick = () => {
        location.hash = `new-${randomSecret()}`;
    };
    drawHome(await allLists());
}

// What people do: each is one change, which is kept or told as not kept.
function actions(store) {
    const change = async (plan) => {
        try {
            await store.change(plan);
            drawProblem("");
        } catch (error) {
            drawProblem(error.name === "QuotaExceededError" ? "This device has no room left, so this wasn't kept. Please free some, and do it again." : `This wasn't kept: ${error.message}.`);
            await draw(store);
        }
    };
    // two devices that take the last one off at the same time leave one less than none
    const more = (list, name) => ["add", name, list.amount(name) < 0n ? 1n - list.amount(name) : 1n];
    return {
        add: (name) => change((list) => [more(list, name)]),
        take: (name) => change((list) => (list.amount(name) > 0n ? [["take", name, 1n]] : [])),
        tick: (name, ticked) => change(() => [[ticked ? "tick" : "untick", name]]),
        async want(text) {
            const { name, calls } = await nameOf(text);
            await change((list) => {
                const same = contentOf(list).things.find((it) => it.text.toLowerCase() === text.toLowerCase())?.name;
                return [...(same ? [] : calls), more(list, same ?? name), ...(list.isTicked(same ?? name) ? [["untick", same ?? name]] : [])];
            });
        },
        async retitle(text) {
            const { name, calls } = await nameOf(text);
            await change(() => [...calls, ["retitle", name]]);
        },
        removeTicked: () =>
            change((list) => {
                const ticked = contentOf(list).things.filter((it) => it.ticked);
                return ticked.flatMap(({ name, amount }) => [["take", name, amount], ["untick", name]]);
            }),
    };
}

async function draw(store, act = actions(store)) {
    drawList(contentOf(await store.list()), act);
}

function listen(store) {
    const act = actions(store);
    addEventListener("changed", () => draw(store, act));
    addEventListener("status", ({ detail }) => drawStatus(detail));
    at("adding").onsubmit = (event) => {
        event.preventDefault();
        const text = at("want").value.trim();
        if (isTooLong(text)) drawProblem("This is too long for one thing.");
        else {
            at("want").value = "";
            if (text) act.want(text);
        }
    };
    at("title").onchange = () => {
        if (isTooLong(at("title").value)) drawProblem("This is too long for a name.");
        else act.retitle(at("title").value);
    };
    at("title").onkeydown = ({ key }) => {
        if (key === "Enter") at("title").blur();
    };
    at("clear").onclick = () => act.removeTicked();
    at("share").onclick = share;
    return act;
}

async function share() {
    const what = { title: document.title, url: location.href };
    try {
        if (navigator.share) await navigator.share(what);
        else await navigator.clipboard.writeText(what.url);
        at("shared").hidden = Boolean(navigator.share);
    } catch (error) {
        if (error.name !== "AbortError") drawProblem("The link couldn't be copied. It is in the address bar.");
    }
}

// A new list has its key in the address after `new-`, until the server has it.
async function list() {
    const isNew = key.startsWith("new-");
    const store = await Store.open(isNew ? key.slice(4) : key);
    const act = listen(store);
    at("list").hidden = false;
    while (!(await store.list())) {
        drawStatus("joining");
        try {
            await join(store, isNew);
        } catch (error) {
            drawStatus(error.status ? `refused: ${error.message}` : "absent");
            await new Promise((done) => setTimeout(done, 2000));
        }
    }
    if (isNew) history.replaceState(null, "", `#${store.key}`);
    // asks the browser not to clear what is kept here when room gets short
    navigator.storage?.persist?.();
    at("use").disabled = false;
    await draw(store, act);
    document.body.dataset.ready = "yes";
    await talk(store);
}

(key ? list() : home()).catch((error) => drawProblem(`This page can't keep anything here: ${error.message}.`));
