/** Whether nobody beyond this machine can hear, or be heard.
 * @param {Place} place */
export function isHere({ group, bind, to }: Place): boolean;
/** @typedef {{ address: string, port: number }} Address */
/** Where a member hears and sends: a multicast group, as 239.192.17.1 and 8017; or an address of its own, and those of others.
 * @typedef {object} Place
 * @property {Address} [group]
 * @property {string} [interface]
 * @property {Address} [bind]
 * @property {Address[]} [to] */
/** A transport of a member. `take` is given each datagram that comes, and the number of the place it came from. */
export class Udp {
    /** Joins a group, whose port members of one machine share, or takes an address of its own, which nobody else has. An error where neither can be had.
     * @param {(datagram: Uint8Array, place: bigint) => void} take @param {(fault: Error) => void} fail @param {Place} place */
    static open(take: (datagram: Uint8Array, place: bigint) => void, fail: (fault: Error) => void, { group, interface: on, bind, to }: Place): Promise<Udp>;
    /** @param {(datagram: Uint8Array, place: bigint) => void} take @param {(fault: Error) => void} fail @param {Address[]} to @param {boolean} isShared */
    constructor(take: (datagram: Uint8Array, place: bigint) => void, fail: (fault: Error) => void, to: Address[], isShared: boolean);
    to: Address[];
    socket: import("node:dgram").Socket;
    /** Where this hears. */
    address(): {
        address: string;
        port: number;
    };
    /** To all others. One that does not arrive is lost, as any may be.
     * @param {Uint8Array} datagram */
    send(datagram: Uint8Array): void;
    end(): void;
}
export type Address = {
    address: string;
    port: number;
};
/**
 * Where a member hears and sends: a multicast group, as 239.192.17.1 and 8017; or an address of its own, and those of others.
 */
export type Place = {
    group?: Address | undefined;
    interface?: string | undefined;
    bind?: Address | undefined;
    to?: Address[] | undefined;
};
