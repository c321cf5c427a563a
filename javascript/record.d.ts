/** A file that only grows. One process has it at a time. */
export class Record {
    /** @param {string} path */
    constructor(path: string);
    path: string;
    isBroken: boolean;
    isDue: boolean;
    isHeld: boolean;
    file: number;
    size: number;
    synced: number;
    lines: string[];
    /** Puts lines at the end, all or none; what this member drew is on the disk then. It throws where there is no room.
     * @param {string[]} lines */
    add(lines: string[]): void;
    /** Puts on the disk what is due. */
    sync(): void;
    /** Takes off what could not be written. Nothing is written from then on.
     * @param {number} size */
    cut(size: number): void;
    /** Puts the name of a new file on the disk. */
    syncName(): void;
    /** Closes it, and says that nothing was lost. */
    end(): void;
}
/** A judged host with a record: it decides also which datagrams it takes, by the place from which each came, and what it holds it holds again when
 * it is started anew. What it drew is on the disk before an answer has it to be sent. If a record ends as it should, its host draws at once; else it
 * listens first. A call throws where the record can't be written: end it, and start again. */
export class RecordedHost extends Host {
    /** Opens one, with what its record has.
     * @param {number} member @param {import('./wb.js').Opening & { record: string }} opening */
    static open(member: number, { record: path, program, cells, seed, rate, listen }: import("./wb.js").Opening & {
        record: string;
    }): Promise<RecordedHost>;
    /** @param {number} member @param {import('./wb.js').BareHost} bare @param {Record} record */
    constructor(member: number, bare: import('./wb.js').BareHost, record: Record);
    record: Record;
    toldAt: number;
    /** @param {string} board for a new record @param {number} rate @param {number} listen */
    begin(board: string, rate: number, listen: number): void;
    /** What a call came to, once its record is written.
     * @param {Answer} answer @param {Uint8Array} [datagram] */
    kept(answer: Answer, datagram?: Uint8Array | undefined): import("./wb.js").Told;
    /** Tells it the time of day, in microseconds since 1970, and gives what is to be sent.
     * @param {number} now @param {number} time */
    told(now: number, time: number): Uint8Array[];
}
import { Host } from "./wb.js";
import { Answer } from "./wb.js";
