// The program as the page calls it: in a worker, so that the page stays awake and a long run can be stopped.
import { $, button } from './elements.mjs';

const waiting = new Map();
let worker = null, bytes = null, source = '', next = 1, timer;

// `failed` in an answer is the reason why there is none; this is it where a run was stopped.
export const STOPPED = 'the run was stopped';

function show(words, state) {
  $('engine').className = `engine ${state}`;
  $('engine').replaceChildren(words);
}

function fail(why) {
  for (const told of waiting.values()) told({ failed: why });
  waiting.clear();
}

// After a second a run that goes on can be stopped.
function showBusy() {
  clearTimeout(timer);
  if (waiting.size) timer = setTimeout(() => {
    show('working…', 'busy');
    $('engine').append(' ', button('Stop', stop));
  }, 1000);
}

function begin() {
  const address = URL.createObjectURL(new Blob([source], { type: 'text/javascript' }));
  worker = new Worker(address);
  worker.onmessage = ({ data }) => {
    if ('isReady' in data) {
      if (!data.isReady) lose(`The program could not be loaded: ${data.failed}`);
      return;
    }
    const told = waiting.get(data.id);
    waiting.delete(data.id);
    showBusy();
    if (told) told(data);
  };
  worker.onerror = event => lose(`The program could not be started: ${event.message || 'the browser refuses the worker'}`);
  worker.postMessage({ module: bytes });
}

let lost = '';

// There is no program, and there will be none.
export function lose(why) {
  lost = why;
  clearTimeout(timer);
  show(why, 'dead');
  fail(why);
}

export function start(module, workerSource) {
  bytes = module;
  source = workerSource;
  begin();
}

// Ends all runs. The program is there again at once.
export function stop() {
  worker.terminate();
  fail(STOPPED);
  showBusy();
  begin();
}

// Runs the program on these words. The answer has `status`, `output` (bytes) and `took`, or `failed`.
export function run(words, files) {
  if (lost) return Promise.resolve({ failed: lost });
  return new Promise(told => {
    const id = next++;
    waiting.set(id, told);
    showBusy();
    worker.postMessage({ id, words, files });
  });
}

export function showTime(took) {
  if (!lost) show(`${took < 10 ? took.toFixed(1) : Math.round(took)} ms in this page`, 'ready');
}

export function showIdle(words) {
  if (!lost) show(words, 'ready');
}
