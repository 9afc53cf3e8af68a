// A link that holds an image and how it is run, in its fragment: nothing of it reaches a server.

import { MOST_BYTES } from './module.js';

const HEAD = '#image=';

export async function linkOf(text, call) {
  const packed = await through(new Blob([text]), new CompressionStream('deflate-raw'), Infinity);
  const letters = btoa(binary(packed)).replaceAll('+', '-').replaceAll('/', '_').replace(/=+$/, '');
  const words = new URLSearchParams(Object.entries(call).map(([name, value]) => [name, `${value}`]));
  return `${HEAD}${letters}&${words}`;
}

// The image and the call of a fragment, or null where it has none.
export async function read(fragment) {
  if (!fragment.startsWith(HEAD)) return null;
  const [letters, ...rest] = fragment.slice(HEAD.length).split('&');
  const words = new URLSearchParams(rest.join('&'));
  const packed = Uint8Array.from(atob(letters.replaceAll('-', '+').replaceAll('_', '/')), (it) => it.charCodeAt(0));
  const bytes = await through(new Blob([packed]), new DecompressionStream('deflate-raw'), MOST_BYTES);
  return { text: new TextDecoder('utf-8', { fatal: true }).decode(bytes), call: Object.fromEntries(words) };
}

// What comes of the bytes, at most so many: a short link can stand for a text without end.
async function through(blob, stream, most) {
  const parts = [];
  let length = 0;
  for (const reader = blob.stream().pipeThrough(stream).getReader(); ;) {
    const { done, value } = await reader.read();
    if (done) return new Uint8Array(await new Blob(parts).arrayBuffer());
    length += value.length;
    if (length > most) {
      await reader.cancel();
      throw new Error('the image is too long');
    }
    parts.push(value);
  }
}

function binary(bytes) {
  let letters = '';
  for (let at = 0; at < bytes.length; at += 8192) letters += String.fromCharCode(...bytes.subarray(at, at + 8192));
  return letters;
}
