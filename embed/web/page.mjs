// The installed package in a page of a headless Chromium: what FOLDER has is served, and its node_modules/katara answers the example.
//     node page.mjs FOLDER TYPE DESIGN
// CHROMIUM is the browser. A page without a bundler imports the package by its path.
import { createServer } from "node:http";
import { readFile } from "node:fs/promises";
import { extname, join } from "node:path";
import process from "node:process";
import { Browser } from "../../play/browser.mjs";

const [folder, ...files] = process.argv.slice(2);
const KINDS = { ".mjs": "text/javascript", ".wasm": "application/wasm" };
const server = createServer(async ({ url }, answer) => {
    const body = url === "/" ? "<!doctype html><title>katara</title>" : await readFile(join(folder, url)).catch(() => undefined);
    answer.writeHead(body === undefined ? 404 : 200, { "Content-Type": KINDS[extname(url)] ?? "text/html" }).end(body);
});
await new Promise((done) => server.listen(0, "127.0.0.1", done));
const texts = await Promise.all(files.map((path) => readFile(path, "utf8")));
const browser = new Browser(process.env.CHROMIUM ?? "chromium");
try {
    const page = await browser.open(`http://127.0.0.1:${server.address().port}/`);
    await page.until(() => document.title === "katara");
    const lines = await page.ask(async ([type, design]) => {
        const { load, Gap } = await import("/node_modules/katara/katara.mjs");
        const katara = await load();
        const cart = katara.type(type, design);
        const [here, there] = [cart.replica(1), cart.replica(2)];
        here.do("add", ["milk", 2]);
        const known = here.share();
        there.mergeDifference(here.difference());
        here.do("add", ["milk", 3]);
        here.do("add", ["eggs", 12]);
        there.mergeDifference(here.difference(known));
        try {
            cart.replica(3).mergeDifference(here.difference(known));
        } catch (error) {
            if (error instanceof Gap) return there.keys("count").reverse().map((it) => `count "${it}" = ${there.ask("count", [it])}`);
        }
    }, texts);
    if (page.faults.length) throw new Error(page.faults.join());
    console.log(lines.join("\n"));
} finally {
    await browser.close();
    server.close();
}
