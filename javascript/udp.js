/** For Node: datagrams by UDP, to a multicast group, or from an address of one's own to those of others. */
import { createSocket } from 'node:dgram';

/** @typedef {{ address: string, port: number }} Address */

/** Where a member hears and sends: a multicast group, as 239.192.17.1 and 8017; or an address of its own, and those of others.
 * @typedef {object} Place
 * @property {Address} [group]
 * @property {string} [interface]
 * @property {Address} [bind]
 * @property {Address[]} [to] */

/** A transport of a member. `take` is given each datagram that comes, and the number of the place it came from. */
export class Udp {
  /** @param {(datagram: Uint8Array, place: bigint) => void} take @param {(fault: Error) => void} fail @param {Address[]} to @param {boolean} isShared */
  constructor(take, fail, to, isShared) {
    this.to = to;
    this.socket = createSocket({ type: 'udp4', reuseAddr: isShared });
    this.socket.on('error', fail);
    this.socket.on('message', (datagram, from) => take(datagram, placeOf(from)));
  }

  /** Joins a group, whose port members of one machine share, or takes an address of its own, which nobody else has. An error where neither can be had.
   * @param {(datagram: Uint8Array, place: bigint) => void} take @param {(fault: Error) => void} fail @param {Place} place */
  static async open(take, fail, { group, interface: on = '0.0.0.0', bind = { address: '0.0.0.0', port: 0 }, to = [] }) {
    const made = new Udp(take, fail, group ? [group] : to, group !== undefined), { socket } = made, { address, port } = group ?? bind;
    await new Promise((/** @type {(value: void) => void} */ done, failed) => {
      socket.once('error', failed);
      socket.bind(port, address, done);
    });
    if (group) {
      socket.addMembership(group.address, on);
      socket.setMulticastInterface(on);
      socket.setMulticastTTL(1);
    }
    return made;
  }

  /** Where this hears. */
  address() {
    return this.socket.address();
  }

  /** To all others. One that does not arrive is lost, as any may be.
   * @param {Uint8Array} datagram */
  send(datagram) {
    for (const { address, port } of this.to) this.socket.send(datagram, port, address, () => {});
  }

  end() {
    this.socket.close();
  }
}

/** The number of a place in 64 bits: the address and the port.
 * @param {Address} from */
function placeOf({ address, port }) {
  return address.split('.').reduce((all, part) => (all << 8n) + BigInt(part), 0n) * 65_536n + BigInt(port);
}

/** Whether nobody beyond this machine can hear, or be heard.
 * @param {Place} place */
export function isHere({ group, bind = { address: '0.0.0.0', port: 0 }, to = [] }) {
  return !group && [bind, ...to].every(({ address }) => address === 'localhost' || address.startsWith('127.'));
}
