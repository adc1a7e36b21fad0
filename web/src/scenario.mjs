// The scenario: the event file, its run, and the step that is shown.
import { $ } from './elements.mjs';
import { run } from './engine.mjs';
import { EVENTS, SPEC, announce, eventFile, page, specFile, textOf } from './page.mjs';
import { eventLines, readTrace, stepsOf } from './trace.mjs';

// The most events that are shown; the program runs all of them.
const MOST_EVENTS = 2000;
const box = $('events');
let simulated = '', wantsLast = false;

export function setEvents(text, bytes = null) {
  box.value = text;
  page.events = box.value;
  page.eventBytes = bytes;
  page.step = 0;
  simulated = '';
}

// The event file was changed by hand: once it has run, its last step is shown.
export function eventsChanged() {
  page.events = box.value;
  page.eventBytes = null;
  wantsLast = true;
}

// Appends a line to the event file.
export function appendEvent(line) {
  const events = box.value.replace(/\n*$/, '');
  setEvents(`${events}${events ? '\n' : ''}${line}\n`);
  wantsLast = true;
}

export const isRunnable = () => Boolean(page.answer && page.answer.status === 0 && page.spec);

// Runs the event file, where the specification is certified and this run has not been done, and reads the trace.
export async function simulate() {
  // Once the answer to a text that was changed is there, this is called again.
  if (page.isStale) return;
  if (!isRunnable()) {
    Object.assign(page, { trace: null, traceGot: null, steps: [] });
    simulated = '';
  } else {
    const key = `${page.text}\0${page.events}`, isSame = () => isRunnable() && key === `${page.text}\0${page.events}`;
    if (simulated === key) return;
    const got = await run(['simulate', SPEC, EVENTS], { [SPEC]: specFile(), [EVENTS]: eventFile() });
    if (!isSame()) return;
    simulated = got.failed ? '' : key;
    const trace = readTrace(got.failed ? `fault: ${got.failed}` : textOf(got.output)), whole = trace.events.length;
    trace.cut = Math.max(0, whole - MOST_EVENTS);
    trace.events.length = Math.min(whole, MOST_EVENTS);
    Object.assign(page, { trace, traceGot: got, steps: stepsOf(page.spec, trace, eventLines(page.events)) });
    if (wantsLast) page.step = page.steps.length - 1;
    wantsLast = false;
  }
  announce('trace');
}

// The steps that are shown: of a text that is not run, none.
export function stepAt(at) {
  page.step = Math.max(0, Math.min(at, page.steps.length - 1));
  return page.steps[page.step];
}
