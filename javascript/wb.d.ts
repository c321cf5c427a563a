/** A seed that nobody guesses. */
export function anySeed(): bigint;
/** A call that is the program's own was refused. It changed nothing. `fault` says why, as `listening`. */
export class Refused extends Error {
    /** @param {string} call @param {string} fault */
    constructor(call: string, fault: string);
    fault: string;
}
/** Microseconds for which a member only listens whose number may have drawn before. */
export const LISTENING: 6000000;
/** A self-managing member: it asks for what it lacks, reports, repairs, and answers others. Moments are microseconds below 2^48 that never
 * go back; begin near `begun`. Each call answers before it returns. */
export class Host {
    /** Opens one. `member` is its number, which no other member of the session has.
     * @param {number} member @param {Opening} opening */
    static open(member: number, { program, cells, seed, rate, listen }: Opening): Promise<Host>;
    /** @param {number} member @param {BareHost} bare */
    constructor(member: number, bare: BareHost);
    member: number;
    /** Its calls by bytes and by lines (include/wb.h).
     * @type {BareHost | null} */
    bare: BareHost | null;
    /** The moment at which to call `tick` next.
     * @type {number | null} */
    due: number | null;
    /** The moment of its beginning, and the one from which on it may draw. */
    begun: number;
    readyAt: number;
    /** What takes the calls. HostEnded where it was ended. */
    live(): BareHost;
    /** The block of a line.
     * @param {string} line @returns {Block} */
    ask(line: string): Block;
    /** @param {string} line */
    must(line: string): Block;
    /** @param {Answer} answer @param {Uint8Array} [datagram] that came in @returns {Told} */
    heed(answer: Answer, datagram?: Uint8Array | undefined): Told;
    /** A datagram came in. The answer refuses bytes that are not one, or that no host takes; this program is not to blame. From which place, only
     * a host with a record minds.
     * @param {number} now @param {Uint8Array} datagram @param {bigint} [_place] @returns {Told} */
    came(now: number, datagram: Uint8Array, _place?: bigint | undefined): Told;
    /** Time is `now`: to be called when the clock comes to `due`, and before more is handed in then.
     * @param {number} now */
    tick(now: number): Told;
    /** The user draws, as `{ kind: 'text', x: 0, y: 1, text: 'hello' }`, or in words, as `line 0 0 4 0 *`, `text 0 1 "hello"` or `delete 7 1`. If two
     * drawops cover one cell, the one with the greater time is seen: use the microseconds of the time of day.
     * @param {number} now @param {number | bigint} time @param {string} page as `1/1` @param {Drawing | string} drawing @returns {Told} */
    add(now: number, time: number | bigint, page: string, drawing: Drawing | string): Told;
    /** The line of a drawing.
     * @param {number} now @param {number | bigint} time @param {string} page @param {string} operation */
    lineOf(now: number, time: number | bigint, page: string, operation: string): string;
    /** Draws by bytes. What is refused is what its line is refused for.
     * @param {string} line @param {number} now @param {Uint8Array} draft */
    byBytes(line: string, now: number, draft: Uint8Array): Told;
    /** Draws by its line, which says what is wrong with it.
     * @param {string} line @returns {Answer} */
    byLine(line: string): Answer;
    /** An answer with the drawing in it, which goes out behind what is due before.
     * @param {Answer} answer @returns {Told} */
    named(answer: Answer): Told;
    /** Draws one after another, until one has no room. Refused at the first that the host does not take; those before it are drawn.
     * @param {number} now @param {number | bigint} time @param {string} page @param {(Drawing | string)[]} drawings @returns {Told[]} */
    addAll(now: number, time: number | bigint, page: string, drawings: (Drawing | string)[]): Told[];
    /** Gives the timers other constants, 1 to 16 each.
     * @param {number} c1 @param {number} c2 @param {number} d1 @param {number} d2 */
    tune(c1: number, c2: number, d1: number, d2: number): void;
    /** The bytes of each item that a question finds. What is no question its line refuses.
     * @param {string} line @param {number} question @param {string} page @param {number} [width] @param {number} [height] @returns {Uint8Array[]} */
    items(line: string, question: number, page: string, width?: number | undefined, height?: number | undefined): Uint8Array[];
    /** The rows of the page's canvas, 1 to 200 wide and 1 to 100 high.
     * @param {string} page @param {number} width @param {number} height */
    show(page: string, width: number, height: number): string[];
    /** What the page shows, in the order of painting.
     * @param {string} page @returns {Drawop[]} */
    view(page: string): Drawop[];
    /** What is missing of the page.
     * @param {string} page @returns {Gap[]} */
    gaps(page: string): Gap[];
    /** Of each source, the greatest number that is held of the page.
     * @param {string} page @returns {Map<number, number>} */
    report(page: string): Map<number, number>;
    /** 32 bytes that two members compare: if they are equal, both hold the same drawops of the page.
     * @param {string} page */
    digest(page: string): Uint8Array;
    /** The pages that have drawops. */
    pages(): string[];
    /** The pages that have drawops, or were heard of. */
    known(): string[];
    /** The number of the lines that the program reads and prints. docs/HOST.md says what it promises. */
    version(): number;
    /** The number that our next drawop on the page will have.
     * @param {string} page */
    nextNumber(page: string): number;
    /** Lets the host go, with its memory. */
    end(): void;
}
export type Became = import('./host.js').Became;
export type Drawop = import('./drawings.js').Drawop;
export type Drawing = import('./drawings.js').Drawing;
/**
 * What a call came to, and the drawop that is held now and was not before: its name, its page and what it draws.
 */
export type Told = Answer & {
    drawop: Drawop | null;
};
/**
 * Numbers of a source that are missing, from the first to the last.
 */
export type Gap = {
    source: number;
    first: number;
    last: number;
};
/**
 * How a host is opened. `cells` is the room of its board, `rate` the bytes a second that the reports of all members may take, and `listen` the
 * microseconds for which it only listens and draws nothing: 0 only for a number that never drew.
 */
export type Opening = {
    /**
     * the module, as `Program.load` or `load` of node.js gives it
     */
    program: Program;
    cells?: number | undefined;
    seed?: bigint | undefined;
    rate?: number | undefined;
    listen?: number | undefined;
};
import { Answer } from "./host.js";
import { Host as BareHost } from "./host.js";
import { HostEnded } from "./host.js";
import { Program } from "./host.js";
import { drawingIn } from "./drawings.js";
import { drawopOf } from "./drawings.js";
import { Block } from "./host.js";
export { Answer, BareHost, HostEnded, Program, drawingIn, drawopOf };
