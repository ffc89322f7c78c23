// A drawing of `picture`, as wide as its texts are: the program's own is as wide as its replicas, and texts at the right may be longer.

const CHARACTER = 8; // pixels, of the font that it has

const textLength = (text) => text.replace(/&[#\w]+;/g, "?").length * CHARACTER;

export function fitted(svg) {
    const ends = [...svg.matchAll(/<text class='(\S+)' x='(\d+)' y='\d+'>([^<]*)<\/text>/g)].map(([, kind, x, text]) => Number(x) + textLength(text) / (kind === "head" ? 2 : 1));
    return svg.replace(/width='(\d+)' height='(\d+)' viewBox='0 0 \d+ \d+'/, (_, width, height) => {
        const whole = Math.max(Number(width), ...ends.map((end) => Math.ceil(end) + 8));
        return `width='${whole}' height='${height}' viewBox='0 0 ${whole} ${height}'`;
    });
}
