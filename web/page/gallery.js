// The gallery: images to begin with, and channels, of which each has an image for each secret.

import { element } from './dom.js';

const SECRET = 5; // that of the channels' images to begin with

export class Gallery {
  #texts = new Map();

  constructor({ images, channels }) {
    Object.assign(this, { images, channels });
  }

  channel(name) {
    return this.channels.find((it) => it.name === name);
  }

  // An image's text.
  async text(file) {
    if (!this.#texts.has(file)) {
      const answer = await fetch(`data/examples/${file}`);
      if (!answer.ok) throw new Error(`${file}: ${answer.status}`);
      this.#texts.set(file, await answer.text());
    }
    return this.#texts.get(file);
  }

  // The texts of a channel's images, one for each secret.
  secretsOf(name) {
    return Promise.all(this.channel(name).files.map((file) => this.text(file)));
  }

  // The call by which an image is run in its own comment, or in the reports of its channel.
  callOf(file) {
    const channel = this.channels.find((it) => it.files.includes(file));
    return channel ? { command: 'run', slots: channel.slots } : this.images.find((it) => it.file === file).command;
  }

  // The channel of which a text is an image, edited or not, and its secret: one whose lines of the
  // secret stand in it, once, between the lines that have them between them.
  secretIn(text) {
    for (const channel of this.channels) {
      const { before, after, lines } = channel.secret;
      for (const [secret, own] of [...lines.entries()].reverse()) {
        const parts = text.split(before + own + after);
        if (parts.length !== 2) continue;
        return { channel, secret, texts: lines.map((line) => parts.join(before + line + after)) };
      }
    }
    return null;
  }

  // What a list of choices has.
  options() {
    const option = (file, title) => element('option', { value: file }, title);
    const of = (some) => some.map(({ file, title }) => option(file, `${file.replace('.toml', '')}: ${title}`));
    const isRefused = ({ file }) => file.startsWith('refused-');
    const channels = this.channels.map(({ name, files, guards }) => (
      option(files[SECRET], guards.length ? `${name}: leaks without ${guards.join(' or ')}` : name)));
    return [
      element('optgroup', { label: 'Examples' }, ...of(this.images.filter((it) => !isRefused(it)))),
      element('optgroup', { label: 'Channels, with a secret' }, ...channels),
      element('optgroup', { label: 'Refused, by each rule' }, ...of(this.images.filter(isRefused))),
    ];
  }
}
