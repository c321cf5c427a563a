// What all tests under Node share.
import assert from 'node:assert/strict';

// what JSON has no words for
const told = (_, each) => (typeof each === 'bigint' ? `${each}n` : each instanceof Map ? [...each] : each);
const plain = (value) => (value === undefined ? undefined : JSON.parse(JSON.stringify(value, told)));

/** A fact: what was found has to be what was wanted, as far as JSON tells them apart. */
export function check(name, found, wanted) {
  try {
    assert.deepEqual(plain(found), plain(wanted));
  } catch (fault) {
    fault.message = `${name}: ${fault.message}`;
    throw fault;
  }
}

/** The message of the fault that an act ends with. */
export function fault(act) {
  try {
    act();
    return 'none';
  } catch (it) {
    return it.message;
  }
}
