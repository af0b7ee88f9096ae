// Damaged texts and modules, the same in each run of a seed.

/** Whole numbers below a bound, by a generator of 32 bits. */
export function numbers(seed) {
  let state = seed >>> 0;
  return (below) => {
    state = (state + 0x6d2b79f5) >>> 0;
    let it = state;
    it = Math.imul(it ^ (it >>> 15), it | 1);
    it ^= it + Math.imul(it ^ (it >>> 7), it | 61);
    return ((it ^ (it >>> 14)) >>> 0) % below;
  };
}

/** A copy of bytes in which some are replaced, taken out, put in or there twice, or the end is cut. */
export function damaged(bytes, drawn) {
  let it = Uint8Array.from(bytes);
  for (let count = 1 + drawn(3); count > 0; count--) {
    const at = drawn(it.length + 1), few = 1 + drawn(8), rest = it.subarray(Math.min(it.length, at + few));
    const kind = drawn(5), front = it.subarray(0, at);
    if (kind === 0 && at < it.length) it[at] = [0, 1, 0x7f, 0x80, 0xff, drawn(256)][drawn(6)];
    else if (kind === 1) it = Uint8Array.from([...front, ...rest]);
    else if (kind === 2) it = Uint8Array.from([...front, ...Array.from({ length: few }, () => drawn(256)), ...it.subarray(at)]);
    else if (kind === 3) it = Uint8Array.from([...front, ...it.subarray(at, at + few), ...it.subarray(at)]);
    else if (kind === 4 && drawn(4) === 0) it = front.slice();
  }
  return it;
}
