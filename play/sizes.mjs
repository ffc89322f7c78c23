// A search of the listing, size by size, so that one can tell how far it is. What it ends with is what one call with the greatest size
// ends with: the listing goes from the small designs to the great ones, and each size takes some times as long as all before it.

const GREATEST = 5; // if none is said
const LIMIT = 24; // what is above it is refused
const FOUND = 0;
// all designs up to a size are refuted; some are neither refuted nor proved
const NOT_YET = [4, 5];

/**
 * @param {string} greatest the size up to which designs are tried, as somebody wrote it, if at all
 * @param {(size: number | string) => Promise<{status: number}>} call what `synth` with a size ends with, or nothing if it was stopped
 * @param {(size: number, greatest: number) => void} tell is called before each call
 */
export async function bySizes(greatest, call, tell) {
    const last = Number(greatest || GREATEST);
    for (let size = 1; size < last && last <= LIMIT; size += 1) {
        tell(size, last);
        const said = await call(size);
        if (!said || said.status === FOUND) return said;
        if (!NOT_YET.includes(said.status)) break;
    }
    tell(last, last);
    return call(greatest || GREATEST);
}
