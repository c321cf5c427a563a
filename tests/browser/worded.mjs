// What tests of members share: datagrams from their words, and a drawing that nobody else waits for.

/** Has a member draw in a turn, and gives what each drawing came to. */
export async function drawAll({ people }, page, ...operations) {
  const drawings = Promise.allSettled(operations.map((operation) => people.draw(page, operation)));
  for (const call of people.calls.splice(0)) await call();
  await people.drawAll();
  return drawings;
}

/** The same of one drawing, which may be refused. */
export async function drawOn(member, page, operation) {
  const [{ value, reason }] = await drawAll(member, page, operation);
  if (reason) throw reason;
  return value;
}

/** What is read of a datagram, from its words. */
export function datagramOf(words) {
  const [kind, speaker, ...rest] = words.split(' '), datagram = { kind, speaker: Number(speaker), page: '', name: '', seq: 0, marks: [], echoes: [], words };
  if (kind === 'draw') return { ...datagram, page: rest[0], seq: Number(rest[1]), name: `${speaker} ${rest[0]} ${rest[1]}` };
  if (kind === 'request') return { ...datagram, page: rest[1], name: rest.join(' ') };
  if (kind === 'ask-pages') return datagram;
  if (kind === 'session-message') rest.shift();
  datagram.page = rest.shift();
  for (const word of rest) {
    const [number, told, held] = word.split(/[=@+]/);
    if (word.includes('@')) datagram.echoes.push([Number(number), BigInt(told), BigInt(held)]);
    else datagram.marks.push([Number(number), Number(told)]);
  }
  return datagram;
}
