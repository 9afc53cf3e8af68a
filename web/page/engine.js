// Calls of the program, in a worker that can be stopped.

export class Stopped extends Error {}

export class Engine {
  #compiled;
  #worker = null;
  #next = 0;
  #waiting = new Map(); // by its number, who waits for an answer

  constructor(compiled) {
    this.#compiled = compiled;
  }

  // The answer of a call; `Stopped` where it was stopped before.
  ask(call) {
    this.#worker ??= this.#started();
    const number = this.#next++;
    return new Promise((answered, failed) => {
      this.#waiting.set(number, { answered, failed });
      this.#worker.postMessage({ number, call });
    });
  }

  // Ends the worker in the midst of whatever it does; the next call makes a new one.
  stop() {
    this.#worker?.terminate();
    this.#worker = null;
    this.#fail(new Stopped('stopped'));
  }

  #started() {
    const worker = new Worker(new URL('worker.js', import.meta.url), { type: 'module' });
    worker.addEventListener('message', ({ data }) => {
      this.#waiting.get(data.number)?.answered(data.answer);
      this.#waiting.delete(data.number);
    });
    worker.addEventListener('error', (event) => {
      this.stop();
      this.#fail(new Error(event.message ?? 'the worker ended'));
    });
    worker.postMessage(this.#compiled);
    return worker;
  }

  #fail(fault) {
    for (const { failed } of this.#waiting.values()) failed(fault);
    this.#waiting.clear();
  }
}
