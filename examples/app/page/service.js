// Keeps the page on this device, so that it opens without a network. The server writes a hash of all files into this one: if a file
// changes, so does this, and the browser takes all of them anew. Pages that are open stay with what they have.
const VERSION = "VERSION_OF_ALL_FILES";
const FILES = ["./", "page.css", "app.mjs", "names.mjs", "shared_list.mjs", "store.mjs", "sync.mjs", "view.mjs", "icon.svg", "manifest.json"];

async function keep() {
    const kept = await caches.open(VERSION);
    await kept.addAll(FILES.map((name) => new Request(name, { cache: "reload" })));
}

async function dropOthers() {
    for (const name of await caches.keys()) if (name !== VERSION) await caches.delete(name);
    await clients.claim();
}

async function find(request) {
    return (await (await caches.open(VERSION)).match(request, { ignoreSearch: true })) ?? fetch(request);
}

addEventListener("install", (event) => event.waitUntil(keep()));
addEventListener("activate", (event) => event.waitUntil(dropOthers()));
addEventListener("fetch", (event) => {
    if (event.request.method === "GET") event.respondWith(find(event.request));
});
