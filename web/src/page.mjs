// What the page holds, and who is told when it changes.

export const SPEC = 'specification.rsml';
export const EVENTS = 'scenario.events';
// The most bytes of a specification, as docs/formats.md has it.
export const MOST_BYTES = 1048576;

export const page = {
  data: null,             // the examples, and what the file was built of
  moduleSum: '',          // SHA-256 of the module
  version: '',            // what `version` writes, or nothing
  name: 'specification.rsml',
  text: '',               // the specification, as it is shown
  bytes: null,            // the bytes of the file that was opened, until the text is changed
  events: '',
  eventBytes: null,
  isStale: true,          // whether the text was changed since the answer
  got: null,              // what the run of `explain` gave
  answer: null,           // what was read of it
  spec: null,             // the structure of the text, where it reads
  trace: null, traceGot: null, steps: [], step: 0,
  finding: null,          // the finding that is shown in the picture
  shown: new Map(),       // the element that is shown of each array, by its path
};

// The bytes that the program gets.
export const specFile = () => page.bytes || page.text;
export const eventFile = () => page.eventBytes || page.events;
export const textOf = bytes => new TextDecoder('utf-8', { ignoreBOM: true }).decode(bytes);

const listeners = new Map();
export function on(what, told) {
  listeners.set(what, [...(listeners.get(what) || []), told]);
}
export function announce(what) {
  for (const told of listeners.get(what) || []) told();
}
