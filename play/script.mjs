// What a script says, and which packets are still on their way by it. The script is all that the page keeps of its replicas; what no line
// of a script can say is in comments that have a line of their own:
//     # offline 3          # online 3          # lose p1 2          # double p1 2

const TOKEN = /"[^"\n]*"|[A-Za-z_]\w*|\d+|-/g;
const NOTE = /^# (?:(offline|online) (\d+)|(lose|double) ([A-Za-z_]\w*) (\d+))$/;
const MOST_PACKETS = 32;

// each line that isn't blank, as a list of words; a note as well, with `#` before its first word
export function linesOf(script) {
    return script.split("\n").flatMap((line) => {
        const note = NOTE.exec(line.trim());
        if (note) return [[`#${note[1] ?? note[3]}`, ...note.slice(note[1] ? 2 : 4).filter(Boolean)]];
        const words = line.replace(/#.*/, "").match(TOKEN);
        return words ? [words] : [];
    });
}

export const replicasOf = (lines) => {
    const [, count] = lines.find(([head]) => head === "replicas") ?? [];
    const replicas = Number(count);
    return Array.from({ length: replicas >= 1 && replicas <= 32 ? replicas : 0 }, (_, i) => i + 1);
};

const without = (list, at) => (at < 0 ? list : [...list.slice(0, at), ...list.slice(at + 1)]);

/**
 * What there is at the end of a script: the copies of packets that didn't come to a replica yet, in the order in which they were made;
 * which replicas are offline; which did or absorbed something since they last shipped; the packets by their words, the oldest first;
 * and which operations reached each replica. A packet has those that had reached its replica when it was shipped.
 */
export function networkOf(lines) {
    const replicas = replicasOf(lines);
    const offline = new Set();
    const changed = new Set();
    const packets = new Map();
    const reached = new Map(replicas.map((it) => [it, new Set()]));
    const take = (replica, operations) => operations.forEach((it) => reached.get(replica)?.add(it));
    let waiting = [];
    const find = (packet, to) => waiting.findIndex((it) => it.packet === packet && it.to === to);
    for (const [head, ...rest] of lines) {
        if (head === "do") {
            changed.add(Number(rest[0]));
            take(Number(rest[0]), [rest]);
        } else if (head === "ship") {
            const [from, packet] = [Number(rest[0]), rest[1]];
            const operations = [...(reached.get(from) ?? [])];
            waiting = [...waiting.filter((it) => it.packet !== packet), ...replicas.filter((it) => it !== from).map((to) => ({ packet, from, to, operations }))];
            packets.delete(packet);
            packets.set(packet, operations);
            changed.delete(from);
        } else if (head === "deliver") {
            const to = Number(rest[1]);
            waiting = without(waiting, find(rest[0], to));
            changed.add(to);
            take(to, packets.get(rest[0]) ?? []);
        } else if (head === "#lose") waiting = without(waiting, find(rest[0], Number(rest[1])));
        else if (head === "#double") {
            const at = find(rest[0], Number(rest[1]));
            if (at >= 0) waiting = [...waiting.slice(0, at), waiting[at], ...waiting.slice(at)];
        } else if (head === "#offline") offline.add(Number(rest[0]));
        else if (head === "#online") offline.delete(Number(rest[0]));
    }
    return { replicas, waiting, offline, changed, packets, reached };
}

// A word for a new packet: one that wasn't used, and then the oldest of which nothing is on its way.
export function newPacket({ packets, waiting }) {
    const all = Array.from({ length: MOST_PACKETS }, (_, i) => `p${i + 1}`);
    const fresh = all.find((it) => !packets.has(it));
    if (fresh && packets.size < MOST_PACKETS) return fresh;
    const old = [...packets.keys()];
    return old.find((packet) => !waiting.some((it) => it.packet === packet)) ?? old[0];
}

// The lines that an action adds.
export const ACTIONS = {
    ship: (network, replica) => [`ship ${replica} ${newPacket(network)}`],
    // an operation, which is shipped at once if that is asked for and the replica isn't offline
    operate: (network, replica, operation, shipped) => [`do ${replica} ${operation}`, ...(shipped && !network.offline.has(replica) ? ACTIONS.ship(network, replica) : [])],
    deliver: (_, { packet, to }) => [`deliver ${packet} ${to}`],
    deliverAndKeep: (_, { packet, to }) => [`# double ${packet} ${to}`, `deliver ${packet} ${to}`],
    lose: (_, { packet, to }) => [`# lose ${packet} ${to}`],
    deliverAll: ({ waiting, offline }) => waiting.filter(({ to }) => !offline.has(to)).map(({ packet, to }) => `deliver ${packet} ${to}`),
    offline: (_, replica) => [`# offline ${replica}`],
    // what it did meanwhile is shipped
    online: (network, replica) => [`# online ${replica}`, ...(network.changed.has(replica) ? ACTIONS.ship(network, replica) : [])],
};
