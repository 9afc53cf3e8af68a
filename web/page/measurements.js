// What a spy measured, and how much that tells.

// Each second reading less the one before it: a clock before and after.
export function pairsOf(readings) {
  const pairs = [];
  for (let place = 0; place + 1 < readings.length; place += 2) pairs.push(readings[place + 1] - readings[place]);
  return pairs;
}

// The entropy of a value drawn from these: since a run is determined by the secret, it is the
// information that the value has of the secret, in bits.
export function bitsOf(values) {
  const counts = new Map();
  for (const it of values) counts.set(it, (counts.get(it) ?? 0) + 1);
  let bits = 0;
  for (const count of counts.values()) bits -= (count / values.length) * Math.log2(count / values.length);
  return bits + 0; // (no negative zero)
}

// By how much each measurement is more than the least of its column.
export function differencesOf(rows) {
  const width = Math.max(0, ...rows.map((row) => row.length));
  const least = Array.from({ length: width }, (_, place) => Math.min(...rows.map((row) => row[place] ?? Infinity)));
  return rows.map((row) => row.map((cycles, place) => cycles - least[place]));
}

const WIDE = 30; // the ratio of the greatest difference to the least one from which the scale is logarithmic

// From a difference to 0 to 1; no difference alone is 0.
export function scaleOf(differences) {
  const seen = differences.filter((it) => it > 0);
  if (!seen.length) return () => 0;
  const [least, most] = [Math.min(...seen), Math.max(...seen)];
  const far = most / least >= WIDE ? (it) => Math.log2(1 + it) : (it) => it;
  return (it) => (it > 0 ? 0.2 + 0.8 * (far(it) / far(most)) : 0);
}
