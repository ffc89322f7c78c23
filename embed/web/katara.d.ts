/** An argument of a call: a truth value, a whole number or a name. */
export type Value = boolean | number | bigint | string;
/** The answer to a query; a number is a BigInt. */
export type Answer = boolean | bigint | string;
/** A key of a table, a set or sums by key: a name, or a whole number as a BigInt. */
export type Key = string | bigint;
/** A text, or the bytes of one. */
export type Text = string | ArrayBuffer | ArrayBufferView;

/** A code other than 0; if a proof isn't accepted, with the place of its first fault. */
export class KataraError extends Error {
    readonly code: number;
    readonly condition: number | undefined;
    readonly line: number | undefined;
}

/** Operations are missing that come before those of a packet. */
export class Gap extends KataraError {}

declare global {
    // (for versions of TypeScript before 5.2)
    interface SymbolConstructor {
        readonly dispose: unique symbol;
    }
}

/** A replica of a design. It keeps its memory until `free`, the end of a `using` block, or until it is collected, which may be late. */
export interface Replica {
    /** Does the operation with this name and these arguments, and returns its time. */
    do(name: string, values?: readonly Value[]): number;
    /** The answer to the query with this name and these arguments. */
    ask(name: string, values?: readonly Value[]): Answer;
    /** Does an operation that is a text as in a script. Never build one from user input. */
    doText(text: Text): number;
    /** The text of the answer to a query that is a text as in a script. */
    askText(text: Text): string;
    /** The bytes of the state file. */
    state(): Uint8Array;
    /** The keys at which the query with this name may find something, ascending, also those of things that were removed. */
    keys(query: string): Key[];
    /** Those of these keys at which there is something that a state file lacks, as an earlier one of this replica. What the query reads
     * without a key (the time at which a table was emptied) isn't looked at. */
    keysBeyond(query: string, known: Text): Key[];
    /** Merges the bytes of a state file, or the state of another replica of the same library, and tells whether that changed anything.
     * The replica doesn't know its marks any more. */
    merge(state: Text | Replica): boolean;
    /** Merges the state of another replica of the same library directly, and tells whether that changed anything. */
    mergeFrom(other: Replica): boolean;
    /** Becomes the replica in a state file, with its number and its clock, and without marks. */
    restore(state: Text): void;
    /** The bytes of the share file: what a peer has once it merged this replica's packets, and from which it can be set up again. */
    share(): Uint8Array;
    /** A packet of what the replica has beyond a share file that the peer is known to have; without one, of all that it has. */
    difference(known?: Text): Uint8Array;
    /** Merges a packet and tells whether that changed anything. Throws a `Gap` if operations are missing that come before it. */
    mergeDifference(packet: Text): boolean;
    /** The bytes of its marks: for each replica the time of its latest operation in the state. */
    marks(): Uint8Array;
    /** Becomes the replica in a share file, with its number, its clock and its marks. */
    restoreShare(share: Text): void;
    /** Frees the memory. Each later call throws. */
    free(): void;
    /** The same, at the end of a `using` block. */
    [Symbol.dispose](): void;
}

/** A type with its design, whose proof was checked. */
export interface Type {
    /** A new replica with a number from 1 to 32. */
    replica(number: number): Replica;
    /** Frees the memory of the type. Its replicas stay. */
    free(): void;
    /** The same, at the end of a `using` block. */
    [Symbol.dispose](): void;
}

export interface Library {
    /** A replica with a number from 1 to 32, of the design in a file whose proof is accepted for a type. */
    open(type: Text, design: Text, number: number): Replica;
    /** What a design writes on a script, as `katara run` does. */
    run(type: Text, design: Text, script: Text): string;
    /** A type with its design, whose proof is checked here, once for all replicas of it. */
    type(type: Text, design: Text): Type;
    /** The version of the library. */
    version(): string;
    /** What a code says. */
    message(code: number): string;
    /** How many bytes of memory the module has. */
    size(): number;
}

/** The library of a module's bytes; without them, of katara.wasm beside this file, which Node and Deno read and browsers fetch. */
export function load(bytes?: ArrayBuffer | ArrayBufferView): Promise<Library>;
