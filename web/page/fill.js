// Fills the templates that web/data makes of the words of sdk/: `{count:,}`, `{pc:#x}`.

export function fill(template, values) {
  return template.replace(/\{(\w+)(?::([^}]+))?\}/g, (hole, name, format) => {
    if (!(name in values)) throw new Error(`${hole} of '${template}'`);
    return format ? FORMATS[format](values[name]) : `${values[name]}`;
  });
}

// `one` or `many`, as the templates of counts are named.
export const manyOf = (count) => (count === 1 ? 'one' : 'many');

export const grouped = (number) => `${number}`.replace(/\B(?=(\d{3})+$)/g, ',');

export const hexOf = (number, digits = 0) => number.toString(16).padStart(digits, '0');

// As Python's format has them.
const FORMATS = {
  ',': grouped,
  '#x': (number) => `0x${hexOf(number)}`,
  '#05x': (number) => `0x${hexOf(number, 3)}`,
  '08x': (number) => hexOf(number, 8),
};
