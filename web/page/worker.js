// Answers calls one after the other, out of the page's way. The first message is the module.

import { answer } from './module.js';

let compiled;

addEventListener('message', ({ data }) => {
  if (data instanceof WebAssembly.Module) compiled = data;
  else postMessage({ number: data.number, answer: answer(compiled, data.call) });
});
