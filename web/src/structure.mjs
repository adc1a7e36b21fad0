// Reads what a specification declares, for the picture, the scenario and the tables of this page. Whether the text is one, and all that
// is judged of it, is told by the program alone: this reader throws where it cannot go on, and takes some texts that the program refuses.
import { isCode, placesIn, tokens } from './tokens.mjs';

// Walks over the tokens of a text.
class Reader {
  constructor(text) {
    this.text = text;
    this.list = tokens(text).filter(isCode);
    this.at = 0;
    this.place = placesIn(text);
    this.items = [];
  }
  get next() { return this.at < this.list.length ? this.list[this.at].text : ''; }
  get offset() { return this.at < this.list.length ? this.list[this.at].at : this.text.length; }
  // The end of the last token that was taken.
  get end() { const it = this.list[this.at - 1]; return it ? it.at + it.text.length : 0; }
  take(wanted) {
    const it = this.list[this.at];
    if (!it || (wanted && it.text !== wanted)) throw new Error(`${wanted || 'a token'} is missing`);
    this.at++;
    return it.text;
  }
  has(wanted) {
    if (this.next !== wanted) return false;
    this.at++;
    return true;
  }
  // The text from here to before one of these tokens, with single spaces.
  words(...stops) {
    const from = this.offset;
    while (this.at < this.list.length && !stops.includes(this.next)) this.at++;
    return this.text.slice(from, this.end).replace(/#[^\n]*/g, ' ').replace(/\s+/g, ' ').trim();
  }
  // Reads something that requirements can name, and notes where it stands.
  item(kind, read) {
    const from = this.offset, item = { kind, from, ...this.place(from), inside: [] };
    const outer = this.outer;
    (outer ? outer.inside : this.items).push(item);
    this.outer = item;
    const it = read(item);
    this.outer = outer;
    item.to = this.end;
    return it;
  }
}

function list(reader, open, close, read) {
  const found = [];
  reader.take(open);
  if (reader.has(close)) return found;
  do found.push(read()); while (reader.has(','));
  reader.take(close);
  return found;
}

function signed(reader) {
  return (reader.has('-') ? '-' : '') + reader.take();
}

// The word between brackets, or nothing.
function bracket(reader) {
  if (!reader.has('[')) return null;
  const word = reader.take();
  reader.take(']');
  return word;
}

function reference(reader) {
  return { name: reader.take(), index: bracket(reader) };
}

function table(reader) {
  const rows = [];
  reader.take('{');
  while (!reader.has('}')) {
    const phrase = reader.words('|', '}');
    reader.take('|');
    const cells = [];
    while (!reader.has(';')) {
      const it = reader.take();
      cells.push(...(it === '..' ? ['.', '.'] : [it]));
    }
    rows.push({ phrase, cells });
  }
  return rows;
}

// The rows of a guard; null is `always`.
function guard(reader) {
  return reader.has('always') ? null : table(reader);
}

function transition(reader, component) {
  return reader.item('transition', item => {
    const verb = reader.take(), it = { verb, source: reader.take(), target: null, raises: [], line: item.line };
    it.ordinal = component.transitions.length + 1;
    if (verb === 'move') {
      reader.take('->');
      it.target = [reader.take()];
      while (reader.has('.')) it.target.push(reader.take());
    }
    reader.take('on');
    it.event = reference(reader);
    reader.take('when');
    it.guard = guard(reader);
    if (reader.has('raise')) do it.raises.push(reference(reader)); while (reader.has(','));
    reader.take(';');
    item.label = `${component.name} ${it.ordinal} ${verb} ${it.source}${it.target ? ` -> ${it.target.join('.')}` : ''}`;
    return it;
  });
}

function state(reader) {
  return reader.item('state', item => {
    const isArray = reader.take() === 'array', it = { name: reader.take(), line: item.line, children: [], transitions: [], buses: {} };
    item.label = `state ${it.name}`;
    it.size = isArray ? bracket(reader) : null;
    if (reader.has(';')) return { ...it, kind: 'basic' };
    it.kind = reader.take();
    reader.take('{');
    if (it.kind === 'one') {
      reader.take('default');
      it.first = reader.take();
      reader.take(';');
    }
    while (!reader.has('}')) {
      if (['state', 'array'].includes(reader.next)) it.children.push(state(reader));
      else if (reader.has('bus')) {
        const name = reader.take();
        it.buses[name] = list(reader, '{', '}', () => reader.take());
      } else if (['move', 'stay'].includes(reader.next)) it.transitions.push(transition(reader, it));
      else throw new Error(`${reader.next} is not expected`);
    }
    return it;
  });
}

const DECLARATIONS = {
  enumeration(reader, spec, name) { spec.enumerations[name] = list(reader, '{', '}', () => reader.take()); },
  range(reader, spec, name) {
    const low = +signed(reader);
    reader.take('..');
    spec.ranges[name] = [low, +signed(reader)];
    reader.take(';');
  },
  constant(reader, spec, name) {
    reader.take('=');
    spec.constants[name] = +signed(reader);
    reader.take(';');
  },
  input(reader, spec, name) {
    const it = { name, size: bracket(reader) };
    reader.take(':');
    it.type = reader.take();
    reader.take('=');
    it.initial = signed(reader);
    reader.take(';');
    spec.inputs[name] = it;
  },
  event(reader, spec, name) {
    spec.events[name] = { name, size: bracket(reader) };
    reader.take(';');
  },
  macro(reader, spec, name, item) {
    spec.macros[name] = { name, size: bracket(reader), rows: table(reader), line: item.line };
  },
  function(reader, spec, name) {
    const it = { name, size: bracket(reader), cases: [] };
    reader.take('{');
    while (!reader.has('}')) it.cases.push(reader.item('case', item => {
      item.label = `function ${name} case ${it.cases.length + 1}`;
      const found = { value: reader.words('when'), guard: (reader.take('when'), guard(reader)) };
      reader.take(';');
      return found;
    }));
    spec.functions[name] = it;
  },
  receive(reader, spec, name, item) {
    const it = { name, size: bracket(reader), line: item.line };
    it.fields = list(reader, '(', ')', () => reference(reader));
    reader.take('raise');
    it.event = reference(reader);
    reader.take(';');
    spec.receives.push(it);
  },
  send(reader, spec, name) {
    const it = { name, size: bracket(reader), cases: [] };
    it.fields = list(reader, '(', ')', () => reader.take());
    reader.take('{');
    while (!reader.has('}')) it.cases.push(reader.item('case', item => {
      item.label = `send ${name} case ${it.cases.length + 1}`;
      reader.take('on');
      const event = reference(reader);
      reader.take('when');
      const found = { event, guard: guard(reader), line: item.line };
      found.values = reader.has('quiet') ? null : list(reader, '(', ')', () => reader.words(',', ')'));
      reader.take(';');
      return found;
    }));
    spec.sends.push(it);
  },
};

// Sizes that are written by a constant become its number; 0 stands for none.
function settle(spec) {
  const number = word => word === null ? 0 : /^[0-9]/.test(word) ? +word : spec.constants[word] || 1;
  const lists = [spec.inputs, spec.events, spec.macros, spec.functions].map(Object.values);
  for (const it of [...lists.flat(), ...spec.receives, ...spec.sends]) it.size = number(it.size);
  (function walk(it) {
    it.size = number(it.size);
    it.children.forEach(walk);
  })(spec.top);
}

// Returns what the text declares, with its states from `top` on, and `items`: all that a requirement can name.
export function structure(text) {
  const reader = new Reader(text);
  reader.take('specification');
  const spec = {
    name: reader.take(), enumerations: {}, ranges: {}, constants: {}, inputs: {}, events: {}, macros: {}, functions: {},
    receives: [], sends: [],
  };
  reader.take(';');
  while (reader.next !== 'state') {
    const word = reader.next;
    if (!Object.hasOwn(DECLARATIONS, word)) throw new Error(`${word} is not expected`);
    reader.item(word, item => {
      reader.take();
      const name = reader.take();
      item.label = `${word} ${name}`;
      DECLARATIONS[word](reader, spec, name, item);
    });
  }
  spec.top = state(reader);
  if (reader.next) throw new Error(`${reader.next} is not expected`);
  spec.items = reader.items;
  settle(spec);
  return spec;
}
