/** The bytes of hexadecimal digits.
 * @param {string} digits */
export function unhex(digits: string): Uint8Array;
/** Whether the engine takes the module as the compiler made it. */
export function isWide(): boolean;
/** The proved library of a host, in a module of WebAssembly: it takes datagrams as bytes, and lines, and answers each at once. */
/** The host broke off, or has no memory: its instance is thrown away. */
export class HostEnded extends Error {
}
/** What a line printed, and then the next moment that is due, or why the line was refused. */
export class Block {
    /** @param {string[]} lines @param {string} close the line that closes the block */
    constructor(lines: string[], close: string);
    lines: string[];
    fault: string | null;
    /** @type {number | null} */
    due: number | null;
    /** What its lines say that begin with this word.
     * @param {string} word */
    said(word: string): string[];
    /** The datagrams to send. */
    sent(): Uint8Array[];
}
/** What became of a drawop that was handed in.
 * @typedef {'new' | 'again' | 'clash' | 'full'} Became */
/** An origin as a host knows it, by the numbers of its place and of its owner, if it has one.
 * @typedef {{ place: bigint, owner: bigint | null }} OriginNumbers */
/** From where a stream is to be taken, and how many numbers are missing.
 * @typedef {{ place: bigint, owner: bigint | null, lacking: bigint }} Fetch */
/** What a call came to. If it was refused, nothing has changed. Most of it a judged host alone gives: it says what to record before what is sent. */
export class Answer {
    /** Why it was refused, as a line of the same meaning says it.
     * @type {string | null} */
    refused: string | null;
    /** The moment at which to call `tick` next.
     * @type {number | null} */
    due: number | null;
    /** Why a judged host dropped what came.
     * @type {string | null} */
    dropped: string | null;
    /** Lines of the record, to be kept before anything is sent.
     * @type {string[]} */
    records: string[];
    /** Names of what a judged host holds now and did not before, each as SOURCE C/N NUMBER.
     * @type {string[]} */
    drew: string[];
    /** Datagrams to be sent to all others.
     * @type {Uint8Array[]} */
    send: Uint8Array[];
    /** What became of the drawop that was handed in or drawn.
     * @type {Became | null} */
    became: Became | null;
    /** @type {Fetch | null} */
    fetch: Fetch | null;
    /** What people are to be warned of, in the words of a line.
     * @type {string | null} */
    warning: string | null;
}
/** A host of one member, with a memory of its own. Nothing here waits: each call answers before it returns. HostEnded where it broke off. */
export class Host {
    /** @param {WebAssembly.Instance} instance */
    constructor(instance: WebAssembly.Instance);
    calls: Calls;
    memory: WebAssembly.Memory;
    bytes: Uint8Array;
    numbers: DataView;
    isOver: boolean;
    input: Room;
    output: Room;
    told: Room;
    sizePlace: bigint;
    from: number;
    until: number;
    place: bigint;
    /** A datagram came in, at a host that is not judged. The answer refuses bytes that are none, or that no host takes.
     * @param {number} now @param {Uint8Array} datagram */
    came(now: number, datagram: Uint8Array): Answer;
    /** Bytes came in from an origin, at a judged host.
     * @param {number} now @param {OriginNumbers} origin @param {Uint8Array} datagram */
    cameFrom(now: number, { place, owner }: OriginNumbers, datagram: Uint8Array): Answer;
    /** The time of day at a moment, in microseconds since 1970, at a judged host.
     * @param {number} now @param {number} time */
    wall(now: number, time: number): Answer;
    /** The network says that whoever spoke from an origin is gone, at a judged host.
     * @param {number} now @param {OriginNumbers} origin */
    gone(now: number, { place, owner }: OriginNumbers): Answer;
    /** Time goes on to a moment.
     * @param {number} now */
    tick(now: number): Answer;
    /** The user draws what the drawop of these bytes does, on its page and at its time; it gets a name of its own.
     * @param {number} now @param {Uint8Array} drawop */
    add(now: number, drawop: Uint8Array): Answer;
    /** The events of a question (include/wb.h), or why it is none.
     * @param {number} question @param {number} creator @param {number} number @param {number} [width] @param {number} [height]
     * @returns {{ events: Event[], refused: string | null }} */
    events(question: number, creator: number, number: number, width?: number | undefined, height?: number | undefined): {
        events: Event[];
        refused: string | null;
    };
    /** The moment at which to call `tick` next. */
    due(): number | null;
    nextDue(): number | null;
    /** What a call came to that has this status: its events are taken.
     * @param {number} status */
    answer(status: number): Answer;
    /** What the event that was fetched tells. Those of questions are handed on as they are.
     * @param {number} kind @param {Answer} answer */
    tell(kind: number, answer: Answer): void;
    /** The block of a line.
     * @param {string} line */
    ask(line: string): Block;
    /** The text that a line prints.
     * @param {string} line */
    text(line: string): string;
    /** The bytes that a line prints, until the next call.
     * @param {Uint8Array} line without its line feed */
    printed(line: Uint8Array): Uint8Array;
    /** The bytes of the memory: others after it has grown. */
    seen(): Uint8Array;
    /** Puts bytes where a call reads them, and gives the place.
     * @param {Uint8Array} bytes */
    given(bytes: Uint8Array): bigint;
    /** The size that a call told. */
    size(): number;
    /** Fetches the next event, and gives its kind; 0 if none waits.
     * @returns {number} */
    next(): number;
    /** The bytes of the event that was fetched. */
    copied(): Uint8Array;
    sizeIn(): number;
    /** Its text: a line of the record. For a few letters a decoder takes longer. */
    textIn(): string;
    /** A number of it, by its place among those.
     * @param {number} index */
    numberIn(index: number): number;
    /** The same of numbers of 64 bits.
     * @param {number} index */
    longIn(index: number): bigint;
    /** Begins anew, without a board. */
    renew(): void;
    /** The status of a call, where that did not end the host.
     * @param {number} status */
    must(status: number): number;
    /** Does something that may end the host. Of one that broke off nothing is asked any more.
     * @template T @param {() => T} act @returns {T} */
    guarded<T>(act: () => T): T;
}
/** The library as a module that was compiled once, and started as often as wanted. */
export class Program {
    /** Fetches the module that suits the engine.
     * @param {URL} folder @param {boolean} [wide] */
    static load(folder: URL, wide?: boolean | undefined): Promise<Program>;
    /** @param {WebAssembly.Module} module @param {boolean} wide */
    constructor(module: WebAssembly.Module, wide: boolean);
    module: WebAssembly.Module;
    wide: boolean;
    /** A host without a board. */
    start(): Promise<Host>;
    /** What the module says of itself, in lines: its version, the digest of its sources, and whether they are proved. */
    version(): Promise<string>;
}
/**
 * What became of a drawop that was handed in.
 */
export type Became = 'new' | 'again' | 'clash' | 'full';
/**
 * An origin as a host knows it, by the numbers of its place and of its owner, if it has one.
 */
export type OriginNumbers = {
    place: bigint;
    owner: bigint | null;
};
/**
 * From where a stream is to be taken, and how many numbers are missing.
 */
export type Fetch = {
    place: bigint;
    owner: bigint | null;
    lacking: bigint;
};
/**
 * An event, by its kind and its bytes, as `include/wb.h` has them.
 */
export type Event = {
    kind: number;
    bytes: Uint8Array;
};
/**
 * What the module has besides its memory (include/wb.h); places, sizes and moments have 64 bits.
 */
export type Calls = {
    /**
     * room in the memory, or 0
     */
    page_room: (size: bigint) => bigint;
    wb_open: (host: bigint) => number;
    wb_line: (host: bigint, line: bigint, length: bigint, buffer: bigint, room: bigint, size: bigint) => number;
    wb_block: (host: bigint, buffer: bigint, room: bigint, size: bigint) => number;
    wb_came: (host: bigint, now: bigint, datagram: bigint, length: bigint) => number;
    wb_came_from: (host: bigint, now: bigint, place: bigint, owner: bigint, hasOwner: number, datagram: bigint, length: bigint) => number;
    wb_wall: (host: bigint, now: bigint, wall: bigint) => number;
    wb_gone: (host: bigint, now: bigint, place: bigint, owner: bigint, hasOwner: number) => number;
    wb_tick: (host: bigint, now: bigint) => number;
    wb_add: (host: bigint, now: bigint, drawop: bigint, length: bigint) => number;
    wb_ask: (host: bigint, question: number, creator: number, number: number, width: number, height: number) => number;
    wb_event: (host: bigint, kind: bigint, buffer: bigint, room: bigint, size: bigint) => number;
    wb_due: (host: bigint) => bigint;
    wb_version: () => bigint;
    wb_close: (host: bigint) => void;
};
/** A part of the memory that the page writes or reads. */
declare class Room {
    /** @param {Calls} calls @param {number} size */
    constructor(calls: Calls, size: number);
    calls: Calls;
    size: number;
    at: number;
    length: bigint;
    place: bigint;
    /** Makes it as large as that at least. What it was before is not given back, so it doubles.
     * @param {number} size */
    reach(size: number): void;
}
export {};
