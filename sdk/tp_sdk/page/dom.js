// Making elements. What is said is always text: nothing here reads markup.

// element('p', { class: 'told', 'aria-live': 'polite' }, 'said', other) with its attributes and children.
export function element(name, attributes = {}, ...children) {
  return filled(document.createElement(name), attributes, children);
}

export function svg(name, attributes = {}, ...children) {
  return filled(document.createElementNS('http://www.w3.org/2000/svg', name), attributes, children);
}

function filled(it, attributes, children) {
  for (const [name, value] of Object.entries(attributes)) {
    if (value !== undefined && value !== null && value !== false) it.setAttribute(name, value === true ? '' : value);
  }
  it.append(...children);
  return it;
}

export const find = (id) => document.getElementById(id);

// `one `code` two`: what stands between backticks is code.
export function marked(text) {
  return text.split('`').map((part, place) => (place % 2 ? element('code', {}, part) : part));
}
