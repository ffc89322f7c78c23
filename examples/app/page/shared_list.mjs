// Written by `katara emit` from the type shared_list and a design of it; write it anew rather than change it.
//
// Proved of the design: it answers each query as the type does, after the operations that reached the replica,
// in every order that respects their ranks, whatever states come late, twice, in another order or never.
// Not proved: that this code does what the design says.
// It holds if no two replicas ever have the same number, each replica goes on from its newest state, and
// `merge` is only given replicas of this type.

/**
 * A shopping list that several people share: how much is wanted of each thing, what is ticked off, and what
 * the list is called. A name has at most 15 characters. A longer text is said in parts, under a name of its
 * own.
 */
export class SharedList {
  #replica;
  #clock = 0n;
  #marks = new Map();
  /** At each key what each replica added in all. */
  #add = new Map();
  /** At each key what each replica added in all. */
  #take = new Map();
  /** `ticked: table name -> bool = false`. At each key the value that counts most. */
  #ticked = new Map();
  /** `title: name = ""`. The value that counts most. */
  #title = titleStart;
  /** `said: table name -> name = ""`. At each key the value that counts most. */
  #said = new Map();

  /** A new replica that did nothing. Its number, from 1 to 32, is no other replica's, ever. */
  constructor(replica) {
    if (!Number.isInteger(replica) || replica < 1 || replica > 32) throw refusal("replica", "a number from 1 to 32 is needed");
    this.#replica = replica;
  }

  get replica() {
    return this.#replica;
  }

  /** The time of the last operation that this replica did or heard of. */
  get clock() {
    return Number(this.#clock);
  }

  /** `wanted[x] := wanted[x] + n`, rank time, replica. */
  add(x, n) {
    checkName("x", x);
    checkNumber("n", n, 0n);
    const time = nextTime(this.#clock);
    const addSum = grown(this.#add.get(x)?.get(this.#replica), n);
    if (addSum > 0n) sumsAt(this.#add, x).set(this.#replica, addSum);
    this.#clock = time;
    noteTime(this.#marks, this.#replica, time);
  }

  /** `wanted[x] := wanted[x] - n`, rank time, replica. */
  take(x, n) {
    checkName("x", x);
    checkNumber("n", n, 0n);
    const time = nextTime(this.#clock);
    const takeSum = grown(this.#take.get(x)?.get(this.#replica), n);
    if (takeSum > 0n) sumsAt(this.#take, x).set(this.#replica, takeSum);
    this.#clock = time;
    noteTime(this.#marks, this.#replica, time);
  }

  /** `ticked[x] := true`, rank time, replica. */
  tick(x) {
    checkName("x", x);
    const time = nextTime(this.#clock);
    const ticked = { time, replica: BigInt(this.#replica), flag: true };
    if (tickedLess(this.#ticked.get(x) ?? tickedStart, ticked)) this.#ticked.set(x, ticked);
    this.#clock = time;
    noteTime(this.#marks, this.#replica, time);
  }

  /** `ticked[x] := false`, rank time, replica. */
  untick(x) {
    checkName("x", x);
    const time = nextTime(this.#clock);
    const ticked = { time, replica: BigInt(this.#replica), flag: false };
    if (tickedLess(this.#ticked.get(x) ?? tickedStart, ticked)) this.#ticked.set(x, ticked);
    this.#clock = time;
    noteTime(this.#marks, this.#replica, time);
  }

  /** `title := to`, rank time, replica. */
  retitle(to) {
    checkName("to", to);
    const time = nextTime(this.#clock);
    const title = { time, replica: BigInt(this.#replica), to };
    if (titleLess(this.#title, title)) this.#title = title;
    this.#clock = time;
    noteTime(this.#marks, this.#replica, time);
  }

  /** `said[x] := text`, rank time, replica. */
  say(x, text_) {
    checkName("x", x);
    checkName("text", text_);
    const time = nextTime(this.#clock);
    const said = { time, replica: BigInt(this.#replica), text: text_ };
    if (saidLess(this.#said.get(x) ?? saidStart, said)) this.#said.set(x, said);
    this.#clock = time;
    noteTime(this.#marks, this.#replica, time);
  }

  /** Answers `wanted[x]`. */
  amount(x) {
    checkName("x", x);
    const add = total(this.#add.get(x));
    const take = total(this.#take.get(x));
    return add - take;
  }

  /** Answers `ticked[x]`. */
  isTicked(x) {
    checkName("x", x);
    return (this.#ticked.get(x) ?? tickedStart).flag;
  }

  /** Answers `title`. */
  titleNow() {
    return this.#title.to;
  }

  /** Answers `said[x]`. */
  textOf(x) {
    checkName("x", x);
    return (this.#said.get(x) ?? saidStart).text;
  }

  /** The keys of `add` that were ever touched, in their order. No query says so: it is what the state has. */
  addKeys() {
    return ascending(this.#add.keys());
  }

  /** The keys of `take` that were ever touched, in their order. No query says so: it is what the state has. */
  takeKeys() {
    return ascending(this.#take.keys());
  }

  /** The keys of `ticked` that were ever touched, in their order. No query says so: it is what the state has. */
  tickedKeys() {
    return ascending(this.#ticked.keys());
  }

  /** The keys of `said` that were ever touched, in their order. No query says so: it is what the state has. */
  saidKeys() {
    return ascending(this.#said.keys());
  }

  /**
   * Takes in what another replica has, or an older state of this one: late, twice, in any order. Answers what
   * changed.
   */
  merge(other) {
    const changed = new SharedListChanges();
    if (other.#clock > this.#clock) this.#clock = other.#clock;
    this.#marks = joinedMarks(this.#marks, other.#marks);
    for (const [key, value] of other.#add) {
      if (raiseSums(sumsAt(this.#add, key), value)) changed.add.push(key);
    }
    for (const [key, value] of other.#take) {
      if (raiseSums(sumsAt(this.#take, key), value)) changed.take.push(key);
    }
    for (const [key, value] of other.#ticked) {
      if (tickedLess(this.#ticked.get(key) ?? tickedStart, value)) {
        this.#ticked.set(key, value);
        changed.ticked.push(key);
      }
    }
    if (titleLess(this.#title, other.#title)) {
      this.#title = other.#title;
      changed.title = true;
    }
    for (const [key, value] of other.#said) {
      if (saidLess(this.#said.get(key) ?? saidStart, value)) {
        this.#said.set(key, value);
        changed.said.push(key);
      }
    }
    changed.any = changed.add.length > 0 || changed.take.length > 0 || changed.ticked.length > 0 || changed.title || changed.said.length > 0;
    return changed;
  }

  /**
   * The least part that a replica with the state `known` lacks: merged there, or into what has all of `known`,
   * it gives what merging the whole would. Merge it nowhere else.
   */
  difference(known) {
    const it = new SharedList(this.#replica);
    it.#clock = this.#clock;
    it.#marks = undefined;
    for (const [key, value] of this.#add) {
      const more = sumsBeyond(value, known.#add.get(key));
      if (more.size > 0) it.#add.set(key, more);
    }
    for (const [key, value] of this.#take) {
      const more = sumsBeyond(value, known.#take.get(key));
      if (more.size > 0) it.#take.set(key, more);
    }
    for (const [key, value] of this.#ticked) {
      if (tickedLess(known.#ticked.get(key) ?? tickedStart, value)) it.#ticked.set(key, value);
    }
    if (titleLess(known.#title, this.#title) || titleLess(this.#title, titleStart)) it.#title = this.#title;
    for (const [key, value] of this.#said) {
      if (saidLess(known.#said.get(key) ?? saidStart, value)) it.#said.set(key, value);
    }
    return it;
  }

  /** A copy, of the same number: go on with one of them alone. */
  clone() {
    const it = new SharedList(this.#replica);
    it.#clock = this.#clock;
    it.#marks = this.#marks && new Map(this.#marks);
    for (const [key, value] of this.#add) it.#add.set(key, new Map(value));
    for (const [key, value] of this.#take) it.#take.set(key, new Map(value));
    it.#ticked = new Map(this.#ticked);
    it.#title = this.#title;
    it.#said = new Map(this.#said);
    return it;
  }

  /** Whether the other one has the same number, time and state. */
  equals(other) {
    return this.state() === other.state();
  }

  /** A text for people. */
  toString() {
    return `SharedList ${this.state().trimEnd()}`;
  }

  /** The text of the state file, which every language of `emit` and `katara` itself read again. */
  state() {
    const parts = [
      entriesText(this.#add, sumsText),
      entriesText(this.#take, sumsText),
      entriesText(this.#ticked, (value) => `[${value.time},${value.replica},${value.flag}]`),
      `[${this.#title.time},${this.#title.replica},"${this.#title.to}"]`,
      entriesText(this.#said, (value) => `[${value.time},${value.replica},"${value.text}"]`),
    ];
    return `["state",1,${this.#replica},${this.#clock},[${parts.join(",")}]]\n`;
  }

  /** The replica that a state file has, with its number and clock. */
  static fromState(text) {
    const reader = new Reader(text);
    const it = new SharedList(reader.head());
    it.#clock = reader.clock();
    it.#marks = undefined;
    reader.take("[");
    reader.entries(() => reader.name(), (key) => {
      const value = readSums(reader);
      if (value.size === 0) reader.refuse();
      it.#add.set(key, value);
    });
    reader.take(",");
    reader.entries(() => reader.name(), (key) => {
      const value = readSums(reader);
      if (value.size === 0) reader.refuse();
      it.#take.set(key, value);
    });
    reader.take(",");
    reader.entries(() => reader.name(), (key) => {
      reader.take("[");
      const timeLeaf = reader.number();
      reader.take(",");
      const replicaLeaf = reader.number();
      reader.take(",");
      const flagLeaf = reader.flag();
      const value = { time: timeLeaf, replica: replicaLeaf, flag: flagLeaf };
      reader.take("]");
      if (!tickedLess(tickedStart, value)) reader.refuse();
      it.#ticked.set(key, value);
    });
    reader.take(",");
    {
      reader.take("[");
      const timeLeaf = reader.number();
      reader.take(",");
      const replicaLeaf = reader.number();
      reader.take(",");
      const toLeaf = reader.name();
      const value = { time: timeLeaf, replica: replicaLeaf, to: toLeaf };
      reader.take("]");
      it.#title = value;
    }
    reader.take(",");
    reader.entries(() => reader.name(), (key) => {
      reader.take("[");
      const timeLeaf = reader.number();
      reader.take(",");
      const replicaLeaf = reader.number();
      reader.take(",");
      const textLeaf = reader.name();
      const value = { time: timeLeaf, replica: replicaLeaf, text: textLeaf };
      reader.take("]");
      if (!saidLess(saidStart, value)) reader.refuse();
      it.#said.set(key, value);
    });
    reader.end();
    return it;
  }

  /**
   * A line that says of each replica the time of its latest operation here. It is refused as `marks` once a
   * state came that had none.
   */
  marks() {
    return marksText(this.#replica, this.#clock, knownMarks(this.#marks));
  }

  /** The text of a share file, the marks and then the state: what is kept, and what a peer has once it took it. */
  share() {
    return this.marks() + this.state();
  }

  /**
   * The text of a packet: what this replica has beyond a known one, with the marks of both. Beyond a new replica
   * it is all there is.
   */
  packet(known) {
    const base = marksText(this.#replica, this.#clock, knownMarks(known.#marks));
    return base + this.marks() + this.difference(known).state();
  }

  /**
   * Takes in a packet, late, twice, or of any replica. One that leaves out what is missing here is refused as
   * `gap`, and nothing changes.
   */
  mergePacket(text) {
    const marks = knownMarks(this.#marks);
    const [line, rest] = firstLine(text);
    const base = readMarks(line);
    const told = SharedList.fromShare(rest);
    if (sumsBeyond(base, marks).size > 0) throw refusal("gap", "what is missing here isn't in the packet");
    return this.merge(told);
  }

  /** The replica that a share file has, with its number, clock and marks. */
  static fromShare(text) {
    const [line, rest] = firstLine(text);
    const marks = readMarks(line);
    const it = SharedList.fromState(rest);
    it.#marks = marks;
    return it;
  }

  [Symbol.for("nodejs.util.inspect.custom")]() {
    return this.toString();
  }
}

/** What a merge changed: of each part with keys those that it touched. */
export class SharedListChanges {
  /** Whether anything changed that a query may read. */
  any = false;
  /** The keys of `add` that it touched, in no order. */
  add = [];
  /** The keys of `take` that it touched, in no order. */
  take = [];
  /** The keys of `ticked` that it touched, in no order. */
  ticked = [];
  /** Whether `title` changed. */
  title = false;
  /** The keys of `said` that it touched, in no order. */
  said = [];
}

const tickedStart = { time: 0n, replica: 0n, flag: false };

function tickedLess(a, b) {
  if (a.time !== b.time) return a.time < b.time;
  if (a.replica !== b.replica) return a.replica < b.replica;
  return !a.flag && b.flag;
}

const titleStart = { time: 0n, replica: 0n, to: "" };

function titleLess(a, b) {
  if (a.time !== b.time) return a.time < b.time;
  if (a.replica !== b.replica) return a.replica < b.replica;
  return a.to < b.to;
}

const saidStart = { time: 0n, replica: 0n, text: "" };

function saidLess(a, b) {
  if (a.time !== b.time) return a.time < b.time;
  if (a.replica !== b.replica) return a.replica < b.replica;
  return a.text < b.text;
}

export class SharedListError extends Error {
  /** What is wrong: an argument, a replica's number, a limit of the clock or of a sum, a text, or a gap in a packet; or no marks are known. */
  problem;

  constructor(problem, text) {
    super(text);
    this.name = "SharedListError";
    this.problem = problem;
  }
}

function refusal(problem, text) {
  return new SharedListError(problem, text);
}

/** Reads the text of a state file from the left. */
class Reader {
  #text;
  #at = 0;

  constructor(text) {
    this.#text = text;
  }

  refuse() {
    throw refusal("state", `no state of shared_list: at ${this.#at}`);
  }

  #token(pattern) {
    pattern.lastIndex = this.#at;
    const found = pattern.exec(this.#text)?.[0];
    this.#at += found?.length ?? 0;
    return found;
  }

  has(mark) {
    this.#token(/[ \t\r\n]*/y);
    const it = this.#text.startsWith(mark, this.#at);
    if (it) this.#at += mark.length;
    return it;
  }

  take(mark) {
    if (!this.has(mark)) this.refuse();
  }

  /** A whole number of 64 bits, with or without a sign. */
  number() {
    this.has("");
    const value = BigInt(this.#token(/0|-?[1-9][0-9]{0,19}/y) ?? this.refuse());
    return value >= -(1n << 63n) && value < 1n << 64n ? value : this.refuse();
  }

  between(least, most) {
    const value = this.number();
    return least <= value && value <= most ? value : this.refuse();
  }

  natural() {
    return this.between(0n, 1n << 64n);
  }

  replica() {
    return Number(this.between(1n, 32n));
  }

  name() {
    this.has("");
    return (this.#token(/"[0-9A-Za-z_.-]{0,15}"/y) ?? this.refuse()).slice(1, -1);
  }

  flag() {
    if (this.has("true")) return true;
    this.take("false");
    return false;
  }

  /** A list of keys, each after the one before it. */
  keys(key, each) {
    let before;
    this.take("[");
    if (this.has("]")) return;
    do {
      const next = key();
      if (before !== undefined && !(before < next)) this.refuse();
      each(next);
      before = next;
    } while (this.has(","));
    this.take("]");
  }

  /** A list of pairs of a key and what `each` reads. */
  entries(key, each) {
    const first = () => {
      this.take("[");
      return key();
    };
    this.keys(first, (next) => {
      this.take(",");
      each(next);
      this.take("]");
    });
  }

  head() {
    for (const mark of ["[", '"state"', ",", "1", ","]) this.take(mark);
    return this.replica();
  }

  clock() {
    this.take(",");
    const clock = this.between(0n, LATEST);
    this.take(",");
    return clock;
  }

  end() {
    this.take("]");
    this.take("]");
    this.has("");
    if (this.#at < this.#text.length) this.refuse();
  }
}

function checkName(what, value) {
  if (typeof value !== "string" || !/^[0-9A-Za-z_.-]{0,15}$/.test(value)) throw refusal("argument", `${what} is no name`);
}

function checkNumber(what, value, least) {
  if (typeof value !== "bigint" || value < least || value > LARGEST) throw refusal("argument", `${what} is no number from ${least} to ${LARGEST}`);
}

function nextTime(clock) {
  if (clock >= LATEST) throw refusal("clock", "the clock is at its end");
  return clock + 1n;
}

/** A replica's mark is its latest time, unless no marks are known. */
function noteTime(marks, replica, time) {
  if (marks !== undefined && time > (marks.get(replica) ?? 0n)) marks.set(replica, time);
}

/** A replica's sum with some more, which may be no greater than LIMIT. */
function grown(sum, more) {
  const value = (sum ?? 0n) + more;
  if (value > LIMIT) throw refusal("sum", "a sum is at its end");
  return value;
}

function total(sums) {
  let all = 0n;
  for (const sum of sums?.values() ?? []) all += sum;
  return all;
}

/** A replica's sums only grow, so the greater one is the later one. Whether one grew. */
function raiseSums(sums, other) {
  let grew = false;
  for (const [replica, sum] of other) {
    if (sum > (sums.get(replica) ?? 0n)) {
      sums.set(replica, sum);
      grew = true;
    }
  }
  return grew;
}

function sumsBeyond(sums, known) {
  const more = new Map();
  for (const [replica, sum] of sums) if (sum > (known?.get(replica) ?? 0n)) more.set(replica, sum);
  return more;
}

function sumsAt(table, key) {
  let sums = table.get(key);
  if (sums === undefined) table.set(key, (sums = new Map()));
  return sums;
}

function entriesText(table, text) {
  return `[${ascending(table.keys()).map((key) => `[${keyText(key)},${text(table.get(key))}]`).join(",")}]`;
}

function sumsText(sums) {
  return entriesText(sums, String);
}

function ascending(keys) {
  return [...keys].sort((a, b) => (a < b ? -1 : a > b ? 1 : 0));
}

function keyText(key) {
  return typeof key === "string" ? `"${key}"` : String(key);
}

function readSums(reader) {
  const sums = new Map();
  reader.entries(() => reader.replica(), (replica) => sums.set(replica, reader.between(1n, LIMIT)));
  return sums;
}

/** The marks of both, unless those of one aren't known. */
function joinedMarks(marks, others) {
  if (marks === undefined || others === undefined) return undefined;
  raiseSums(marks, others);
  return marks;
}

function knownMarks(marks) {
  if (marks === undefined) throw refusal("marks", "a state came without marks");
  return marks;
}

function marksText(replica, clock, marks) {
  return `["state",1,${replica},${clock},[${sumsText(marks)}]]\n`;
}

function readMarks(line) {
  const reader = new Reader(line);
  reader.head();
  reader.clock();
  reader.take("[");
  const marks = readSums(reader);
  reader.end();
  return marks;
}

/** The first line, with its end, and what is after it. */
function firstLine(text) {
  const end = text.indexOf("\n") + 1 || text.length;
  return [text.slice(0, end), text.slice(end)];
}

const LARGEST = 1_000_000_000_000n; // of an argument

const LATEST = 1_000_000_000n; // of a clock

const LIMIT = 1_000_000_000_000_000_000n; // of a replica's sum
