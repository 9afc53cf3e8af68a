// Round places on a scale: where the lines of an axis stand.

// Those from one value to another, at most so many, each 1, 2 or 5 times a power of ten from the last.
export function ticks(from, to, most) {
  const least = (to - from) / Math.max(most, 1);
  const power = 10 ** Math.floor(Math.log10(Math.max(least, 1)));
  const step = [1, 2, 5, 10].map((it) => it * power).find((it) => it >= least) ?? 10 * power;
  const first = Math.ceil(from / step) * step;
  // (counted, as a small step is nothing beside a great number)
  const places = Array.from({ length: Math.max(0, Math.ceil(most)) + 1 }, (_, place) => first + place * step);
  return places.filter((it) => it <= to);
}

// Values that want a logarithmic scale: the greatest is more than ten times the least.
export function isWide(values) {
  const least = Math.min(...values);
  return least > 0 && 10 * least < Math.max(...values);
}
