// Files of the system, as the program reads them. For Node, Deno and Bun.
import { closeSync, openSync, readSync } from "node:fs";
import { FILE_LIMIT } from "./call.mjs";

// reads what there is, and waits if there is nothing yet
function readPart(file, part) {
    for (;;) {
        try {
            return readSync(file, part, 0, part.length, null);
        } catch (error) {
            if (error.code === "EOF") return 0; // (the end of a pipe, on Windows)
            if (error.code !== "EAGAIN") throw error;
        }
    }
}

// The bytes of a file, up to where it is too long, as that of an endless device is; none if it can't be read.
export function contentOf(path) {
    let file;
    try {
        file = openSync(path, "r");
        const parts = [];
        for (let left = FILE_LIMIT + 1; left > 0; ) {
            const part = Buffer.allocUnsafe(Math.min(left, 65536));
            const count = readPart(file, part);
            if (count === 0) break;
            parts.push(part.subarray(0, count));
            left -= count;
        }
        return Buffer.concat(parts);
    } catch {
        return undefined;
    } finally {
        if (file !== undefined) closeSync(file);
    }
}
