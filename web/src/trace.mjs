// Reads what `simulate` writes, and works out the states and the cells after each round.
import { readLabel } from './answer.mjs';
import { cellsOf, components, firstCells, firstChildren } from './instances.mjs';

export function readTrace(output) {
  const trace = { events: [], fault: '', end: null };
  let event, round;
  for (const line of output.split('\n')) {
    let it;
    if ((it = /^event (\d+) (.*)$/.exec(line))) trace.events.push(event = { number: +it[1], receive: it[2], rounds: [] });
    else if ((it = /^ {2}round (\d+) (.*)$/.exec(line)))
      event.rounds.push(round = { number: +it[1], events: it[2].split(' '), takes: [], sends: [] });
    else if (line.startsWith('    take ')) round.takes.push(readLabel(line.slice(9)));
    else if (line.startsWith('    send ')) round.sends.push(line.slice(9));
    else if (line.startsWith('fault')) trace.fault = line;
    else if ((it = /^end (\d+)$/.exec(line))) trace.end = +it[1];
  }
  return trace;
}

// The event lines of an event file, each with its number in the file and the comments that stand right before it.
export function eventLines(text) {
  const found = [];
  let remarks = [];
  text.split('\n').forEach((line, k) => {
    const words = line.trim();
    if (words.startsWith('#')) remarks.push(words.replace(/^#\s*/, ''));
    else if (!words) remarks = [];
    else {
      found.push({ line: k + 1, words, remarks });
      remarks = [];
    }
  });
  return found;
}

// The cells that an event line writes, with their values.
function written(spec, line) {
  const [head, ...fields] = line.words.split(/[ \t]+/), it = /^(.*?)(?:\[(\d+)\])?$/.exec(head);
  const receive = spec.receives.find(other => other.name === it[1]);
  const cells = receive ? cellsOf(spec, receive, it[2]) : [];
  return fields.slice(0, cells.length).map((field, k) => [cells[k], field.slice(field.indexOf('=') + 1)]);
}

// The children after a move: its component has the target, and all below it are at the target or at their first children.
function moved(children, all, take) {
  const after = new Map(children);
  for (const [path, state] of all) if (path.startsWith(`${take.component}.`)) after.set(path, state.first);
  let path = take.component;
  for (const step of take.target) {
    if (after.has(path)) after.set(path, step);
    path += `.${step}`;
  }
  return after;
}

// The steps of a trace: the start, and then each round with the children and the cells after it. `wrong` says where a taken transition
// does not fit to what was worked out here.
export function stepsOf(spec, trace, lines) {
  const all = components(spec), cells = firstCells(spec);
  let children = firstChildren(spec);
  const steps = [{ event: 0, round: 0, children, cells: new Map(cells), changed: [], takes: [], sends: [], events: [], wrong: '' }];
  for (const event of trace.events) {
    const changed = [];
    for (const [cell, value] of written(spec, lines[event.number - 1] || { words: '' })) {
      if (cells.get(cell) !== value) changed.push([cell, value]);
      cells.set(cell, value);
    }
    for (const round of event.rounds) {
      const wrong = round.takes.find(it => children.get(it.component) !== it.source);
      let after = children;
      for (const it of round.takes) if (it.verb === 'move') after = moved(after, all, it);
      children = after;
      steps.push({
        event: event.number, round: round.number, children, cells: new Map(cells), changed: round.number === 1 ? changed : [],
        takes: round.takes, sends: round.sends, events: round.events,
        wrong: wrong ? `${wrong.component} is not in ${wrong.source} by this page's reckoning` : '',
      });
    }
  }
  return steps;
}

// The trace as a table: a row for each event line.
export function traceTable(trace, steps, lines) {
  const short = path => path.split('.').slice(1).join('.') || path;
  const hasRemarks = lines.some(it => it.remarks.length);
  const head = ['Event', 'Line', 'Message', 'Changed inputs', 'Events', 'Moves', 'Sent', ...(hasRemarks ? ['Remark'] : [])];
  const rows = trace.events.map(event => {
    const line = lines[event.number - 1] || { line: '', remarks: [] }, own = steps.filter(it => it.event === event.number);
    const moves = own.flatMap(it => it.takes).filter(it => it.verb === 'move');
    return [
      event.number, line.line, event.receive,
      own.flatMap(it => it.changed).map(([cell, value]) => `${cell} = ${value}`).join('; '),
      own.map(it => it.events.join(' ')).join('; '),
      moves.map(it => `${short(it.component)}: ${it.source} → ${it.target.join('.')}`).join('; '),
      own.flatMap(it => it.sends).join('; '),
      ...(hasRemarks ? [line.remarks.join(' ')] : []),
    ];
  });
  return { title: 'Trace', head, rows };
}

const RULES = {
  E1: 'the line is not UTF-8',
  E2: 'its first word is the name of no receive',
  E3: 'the index of its receive is missing, wrong or not asked for',
  E4: 'a field is missing, or does not stand in its place',
  E5: 'it has more words than fields',
  E6: 'a value is not of the type of its input',
  E7: 'a number is outside the range of its input',
  long: 'it has more than 4,096 bytes',
};

// The fault of an event file in words, with the line that it is at, and what could stand there.
export function eventFault(spec, trace, text) {
  const it = /^fault line (\d+) (\S+)$/.exec(trace.fault);
  if (!it) return trace.fault ? { line: 0, said: trace.fault, hint: '' } : null;
  const line = +it[1], words = (text.split('\n')[line - 1] || '').trim().split(/[ \t]+/), name = words[0].replace(/\[.*/, '');
  const receive = spec && spec.receives.find(other => other.name === name);
  let hint = '';
  if (receive && it[2] === 'E3') hint = receive.size ? `${name} has an index from 1 to ${receive.size}` : `${name} has no index`;
  else if (receive) {
    const fields = receive.fields.map(field => `${field.name}=${kindOf(spec, field.name)}`).join(' ');
    hint = fields ? `${name} has ${fields}, in this order` : `${name} has no fields`;
  }
  if (spec && it[2] === 'E2') hint = `the receives are ${spec.receives.map(other => other.name).join(', ')}`;
  return { line, said: `Line ${line}: ${RULES[it[2]] || it[2]} (${it[2]})`, hint };
}

// What an input can hold, in short.
function kindOf(spec, name) {
  const input = spec.inputs[name];
  if (!input) return '..';
  const values = spec.enumerations[input.type], range = spec.ranges[input.type];
  return values ? values.join('|') : range ? range.join('..') : input.type;
}
