// The page of a run: its parts, and what is drawn again as its width changes.

import { find } from './dom.js';
import { chooseTheme } from './toggle.js';
import { showMemory } from './memory.js';
import { showReadings, startReadings } from './measured.js';
import { showDifferences, showRun } from './domains.js';
import { startTimeline } from './slots.js';
import { steer } from './steer.js';
import { showSwitches } from './switches.js';

find('theme').addEventListener('click', chooseTheme);
showRun();
showDifferences();
showSwitches();
showMemory();
startReadings();
const timeline = startTimeline();
if (timeline !== null) steer(timeline);

let width = innerWidth;
addEventListener('resize', () => {
  if (innerWidth === width) return;
  width = innerWidth;
  showSwitches();
  showMemory();
  showReadings();
});
document.documentElement.dataset.ready = 'true';
