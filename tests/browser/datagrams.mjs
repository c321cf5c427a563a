// Tests that datagrams are read as `wb words` says them. The digits are of `wb hex`; test_agreement.py compares many more.
import { hex, readDatagram, unhex } from '../../web/member/datagram.js';
import { check } from '../check.mjs';
import { datagramOf } from './worded.mjs';

const DATAGRAMS = [
  ['574201010000002200000007000000070000000100000001000000000000000a0100000001000400012a', 'draw 7 7/1 1 10 line 0 1 4 1 *'],
  ['5742010100000022ffffffff00000007ffffffff0000ffffffffffffffffffff02000000010fff00027e', 'draw 4294967295 7/4294967295 65535 18446744073709551615 frame 0 1 4095 2 ~'],
  ['574201010000002700000007000000070000000100000003000000000000000c0300000002096120226222205c2063', 'draw 7 7/1 3 12 text 0 2 "a \\"b\\" \\\\ c"'],
  ['574202010000004900000007000000070000000100000004000000000000000c03000000022b30313233343536373839303132333435363738393031323334353637383930313233343536373839203431',
    'draw 7 7/1 4 12 text 0 2 "0123456789012345678901234567890123456789 41"'],
  ['574201010000002100000008000000070000000100000002000000000000003c040000000700000001', 'draw 8 7/1 2 60 delete 7 1'],
  ['574202010000002100000008000000070000000100000003000000000000003d050000000700000001', 'draw 8 7/1 3 61 restore 7 1'],
  ['574201020000005000000009ffffffffffffffff00000007000000010002000000070000000200000008000000030002000000010000000000000064000000000000001400000002ffffffffffffffff0000000000000000',
    'session-message 9 18446744073709551615 7/1 7=2 8=3 1@100+20 2@18446744073709551615+0'],
  ['5742010200000018000000090000000000000005000000070000000100000000', 'session-message 9 5 7/1'],
  ['574201050000001600000009000000070000000200010000000800000004', 'page-state 9 7/2 8=4'],
  ['574201050000000e0000000900000007000000020000', 'page-state 9 7/2'],
  ['57420103000000140000000900000007000000070000000100000002', 'request 9 7 7/1 2'],
  ['574201040000000400000009', 'ask-pages 9'],
];

/** Numbers above 2^53 as texts, which JSON has not. */
const plain = (it) => JSON.parse(JSON.stringify(it, (_, value) => (typeof value === 'bigint' ? String(value) : value)));

export function testDatagrams() {
  for (const [digits, words] of DATAGRAMS) {
    const bytes = unhex(digits), read = readDatagram(bytes);
    check(words, plain(read), plain(datagramOf(words)));
    check(`${words}: its digits`, hex(bytes), digits);
    check(`${words}: cut off, or with more behind it`, [readDatagram(bytes.subarray(0, -1)), readDatagram(new Uint8Array([...bytes, 0]))], [null, null]);
  }
  const [[first]] = DATAGRAMS, spoilt = ['', '57', '5842', first.replace('574201', '574203'), first.replace('57420101', '57420106'), first.replace('000a01', '000a06')];
  check('what is none', spoilt.map((digits) => readDatagram(unhex(digits))), [null, null, null, null, null, null]);
}
