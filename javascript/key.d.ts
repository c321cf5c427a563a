/** The key that closes a session; null for one that is open to everybody. RangeError where neither is said, or both.
 * @param {{ key?: string | undefined, session?: string | undefined, open?: boolean | undefined }} who @param {boolean} [isHere] whether it is of this machine alone */
export function keyOf({ key, session, open }: {
    key?: string | undefined;
    session?: string | undefined;
    open?: boolean | undefined;
}, isHere?: boolean | undefined): Key | null;
/** @typedef {(datagram: Uint8Array, place: bigint) => void} Take */
/** A key by its text, as an invitation and `wb-live --new-key` have it, for a session of a name: it closes datagrams and opens them. */
export class Key {
    /** @param {string} text @param {string} [session] */
    constructor(text: string, session?: string | undefined);
    bytes: Buffer;
    session: Buffer;
    kind: number;
    sender: bigint;
    sent: bigint;
    /** Of each sender the greatest counter, and bits for that one and those below it; the one that was heard last at the end.
     * @type {Map<bigint, { top: bigint, came: bigint }>} */
    senders: Map<bigint, {
        top: bigint;
        came: bigint;
    }>;
    /** @param {Uint8Array} data */
    tag(data: Uint8Array): Buffer;
    /** The next datagram of this sender, closed.
     * @param {Uint8Array} datagram @returns {Uint8Array} */
    close(datagram: Uint8Array): Uint8Array;
    /** A datagram that another sender closed, and the number of that sender; null if it does not open, or came before.
     * @param {Uint8Array} closed */
    open(closed: Uint8Array): {
        datagram: Uint8Array;
        sender: bigint;
    } | null;
    /** @param {Uint8Array} closed */
    unsealed(closed: Uint8Array): Buffer | null;
    /** Whether a datagram comes for the first time. One that is far behind is taken for a repeated one.
     * @param {bigint} sender @param {bigint} counter */
    isNew(sender: bigint, counter: bigint): boolean;
    /** Takes what comes, and hands on what opens: its place is its sender's number, wherever it comes from.
     * @param {Take} take @returns {Take} */
    before(take: Take): Take;
}
/** A transport whose datagrams a key closes. */
export class Closed {
    /** @param {Key} key @param {import('./node.js').Transport} under */
    constructor(key: Key, under: import('./node.js').Transport);
    key: Key;
    under: import("./node.js").Transport;
    /** @param {Uint8Array} datagram */
    send(datagram: Uint8Array): void;
    end(): void;
}
export type Take = (datagram: Uint8Array, place: bigint) => void;
