// The guided tour: six steps, one a guard.

import { element, find } from './dom.js';
import { Picture } from './picture.js';

export class Tour {
  #place = 0;

  // `take` opens in the workbench what a step shows.
  constructor(steps, gallery, engine, take) {
    Object.assign(this, { steps, gallery });
    this.picture = new Picture(find('tour-picture'), engine);
    this.tabs = steps.map((step) => element('button', {
      type: 'button', role: 'tab', id: `step-${step.guard}`, 'aria-controls': 'step',
    }, element('strong', {}, step.guard), element('small', {}, step.title)));
    find('steps').replaceChildren(...this.tabs);
    this.tabs.forEach((tab, place) => tab.addEventListener('click', () => this.go(place)));
    find('steps').addEventListener('keydown', (event) => this.#byKey(event));
    find('back').addEventListener('click', () => this.go(this.#place - 1, true));
    find('next').addEventListener('click', () => this.go(this.#place + 1, true));
    find('take').addEventListener('click', () => {
      const { channel, guard } = this.steps[this.#place];
      take({ channel, guard, secret: this.picture.secret });
    });
  }

  // The step in this place; `told` puts the reader at its beginning.
  async go(place, told = false) {
    this.#place = place;
    const { guard, channel, title, measured, leaks, closes, clause } = this.steps[place];
    this.tabs.forEach((tab, number) => {
      tab.setAttribute('aria-selected', number === place);
      tab.tabIndex = number === place ? 0 : -1;
    });
    find('step').setAttribute('aria-labelledby', `step-${guard}`);
    find('step-title').textContent = `${place + 1}. ${title}`;
    find('step-measured').textContent = measured;
    find('step-leaks').textContent = leaks;
    find('step-closes').textContent = closes;
    const [name, of, crate] = [clause.name, clause.of, clause.crate].map((it) => element('code', {}, it));
    const source = element('span', { class: 'source' }, name, ' of ', of, ', in the crate ', crate);
    find('step-clause').replaceChildren(clause.says, source);
    find('back').disabled = place === 0;
    find('next').disabled = place === this.steps.length - 1;
    if (told) find('step').focus();
    const { slots } = this.gallery.channel(channel);
    await this.picture.show({ texts: await this.gallery.secretsOf(channel), slots, off: guard });
  }

  #byKey(event) {
    const [place, last] = [this.#place, this.steps.length - 1];
    const to = { ArrowRight: place + 1, ArrowLeft: place - 1, Home: 0, End: last }[event.key];
    if (to === undefined || to < 0 || to > last) return;
    event.preventDefault();
    this.go(to);
    this.tabs[to].focus();
  }
}
