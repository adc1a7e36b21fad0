// The matrix of states and events: for each component a table with a row for each child and a column for each event, and one of the
// sends. A cell tells what is done, each with its guard in short.
import { sourcesOf } from './instances.mjs';
import { guardText, referenceText } from './guards.mjs';

const MOST = 160, NOTHING = '–';

const guarded = (guard, does) => guard ? `${guardText(guard, MOST)}: ${does}` : does;
const eventsOf = list => [...new Set(list.map(it => referenceText(it.event)))];

function answerText(it) {
  const raised = it.raises.length ? ` / ${it.raises.map(referenceText).join(', ')}` : '';
  return (it.verb === 'stay' ? 'stay' : `→ ${it.target.join('.')}`) + raised;
}

// The transitions of a component from this child on this event.
function transitionsOf(state, child, event) {
  return state.transitions.filter(it => referenceText(it.event) === event && sourcesOf(state, it.source).includes(child.name));
}

function reactsInside(state, event) {
  return state.children.some(child => transitionsOf(state, child, event).length > 0 || reactsInside(child, event));
}

function componentTable(state, path) {
  const events = eventsOf(state.transitions);
  const cell = (child, event) => {
    const own = transitionsOf(state, child, event);
    if (!own.length) return reactsInside(child, event) ? 'only inside' : NOTHING;
    return own.map(it => guarded(it.guard, answerText(it))).join('\n');
  };
  const row = child => [child.name + (child.name === state.first ? ' (at first)' : ''), ...events.map(event => cell(child, event))];
  return { title: path, head: [state.name, ...events], rows: state.children.map(row) };
}

function sendTable(sends) {
  const events = eventsOf(sends.flatMap(it => it.cases));
  const answer = (send, it) => it.values ? send.fields.map((field, k) => `${field} = ${it.values[k]}`).join(', ') || 'sent' : 'quiet';
  const cell = (send, event) => send.cases.filter(it => referenceText(it.event) === event)
    .map(it => guarded(it.guard, answer(send, it))).join('\n') || NOTHING;
  const row = it => [it.name + (it.size ? `[1 to ${it.size}]` : ''), ...events.map(event => cell(it, event))];
  return { title: 'What is sent', head: ['Send', ...events], rows: sends.map(row) };
}

// Returns the tables. Elements of an array are told once.
export function matrix(spec) {
  const found = [];
  (function walk(state, path) {
    if (state.kind === 'one' && state.transitions.length) found.push(componentTable(state, path));
    for (const child of state.children) walk(child, `${path}.${child.name}${child.size ? `[1 to ${child.size}]` : ''}`);
  })(spec.top, spec.top.name);
  if (spec.sends.length) found.push(sendTable(spec.sends));
  return found;
}
