// Where the picture of the states has its boxes and arrows. A state has those inside it in its box: side by side where all are active, and
// in a row, or in a column where there are many small ones, where one is. Arrows between neighbours are straight; the others go over the
// row or under it, each in a lane of its own.
import { sourcesOf } from './instances.mjs';
import { referenceText } from './guards.mjs';

const HEAD = 24, EDGE = 12, LEAF = 32, APART = 44, APART_IN_COLUMN = 20;

// The moves of a component, one arrow for each pair of children.
function arrowsOf(component) {
  const found = new Map(), places = new Map(component.children.map((it, k) => [it.name, k]));
  for (const it of component.transitions) {
    if (it.verb !== 'move' || !places.has(it.target[0])) continue;
    for (const source of sourcesOf(component, it.source)) {
      const key = `${source}->${it.target[0]}`;
      if (!places.has(source)) continue;
      if (!found.has(key)) found.set(key, { key, source, target: it.target[0], from: places.get(source), to: places.get(it.target[0]), moves: [] });
      found.get(key).moves.push(it);
    }
  }
  return [...found.values()];
}

// Gives each arrow the first lane in which it crosses no other, the short ones first. Returns how many lanes there are.
function giveLanes(arrows) {
  const lanes = [];
  const span = it => Math.abs(it.from - it.to);
  for (const it of [...arrows].sort((a, b) => span(a) - span(b) || a.from - b.from)) {
    const low = Math.min(it.from, it.to), high = Math.max(it.from, it.to);
    let lane = lanes.findIndex(taken => taken.every(([first, last]) => high <= first || low >= last));
    if (lane < 0) lane = lanes.push([]) - 1;
    lanes[lane].push([low, high]);
    it.lane = lane;
  }
  return lanes.length;
}

// The places along a child's side at which the arrows of the lanes begin and end, so that they do not cross there.
function givePorts(children, arrows, isOver, start, length) {
  const span = it => Math.abs(it.from - it.to);
  children.forEach((child, k) => {
    const coming = arrows.filter(it => it.to === k).sort((a, b) => span(a) - span(b));
    const going = arrows.filter(it => it.from === k).sort((a, b) => span(b) - span(a));
    const ports = isOver ? [...coming, ...going] : [...going.reverse(), ...coming.reverse()];
    ports.forEach((it, n) => {
      const place = start(child) + length(child) * (n + 1) / (ports.length + 1);
      if (it.from === k) it.begin = place; else it.end = place;
    });
  });
}

const shortened = (words, most) => words.length > most ? `${words.slice(0, Math.max(1, most - 1))}…` : words;

// Lays out parallel states in rows.
function layParallel(box, title) {
  const { children } = box, area = children.reduce((sum, it) => sum + (it.w + 16) * (it.h + 16), 0);
  const wide = Math.max(...children.map(it => it.w), Math.sqrt(area) * 1.45);
  let x = EDGE, y = HEAD + 6, high = 0, right = 0;
  for (const child of children) {
    if (x > EDGE && x + child.w > wide + EDGE) {
      x = EDGE;
      y += high + 12;
      high = 0;
    }
    Object.assign(child, { x, y, isParallel: true });
    x += child.w + 12;
    high = Math.max(high, child.h);
    right = Math.max(right, x);
  }
  box.w = Math.max(right - 12 + EDGE, title);
  box.h = y + high + EDGE;
}

// Lays out the children of a component with their arrows. In a column `along` is downwards, else to the right.
function layComponent(box, title, measure) {
  const { children, state } = box, isColumn = children.length > 4 && children.every(it => !it.children.length);
  const [start, side, length, thick] = isColumn ? ['y', 'x', 'h', 'w'] : ['x', 'y', 'w', 'h'];
  const point = (along, across) => isColumn ? [across, along] : [along, across];
  const events = [...new Set(state.transitions.map(it => referenceText(it.event)))];
  // Where all transitions have one event it stands at the name of the component, and else at each arrow.
  box.trigger = events.length === 1 ? events[0] : '';
  const label = it => {
    if (box.trigger || isColumn) return '';
    const names = [...new Set(it.moves.map(move => move.event.name))];
    return shortened(names.length > 2 ? `${names[0]} +${names.length - 1}` : names.join(', '), 24);
  };
  const arrows = arrowsOf(state), distance = it => Math.abs(it.from - it.to);
  const near = arrows.filter(it => distance(it) === 1), far = arrows.filter(it => distance(it) > 1);
  const over = far.filter(it => it.from < it.to), under = far.filter(it => it.from > it.to);
  const overLanes = giveLanes(over), underLanes = giveLanes(under), lane = isColumn ? 13 : 17;
  const room = lanes => lanes ? lanes * lane + 10 : 0;
  const before = (isColumn ? EDGE : HEAD) + Math.max(6, room(overLanes)), behind = EDGE + room(underLanes);
  const widest = Math.max(...children.map(it => it[thick]));
  const wide = it => label(it) ? measure(label(it), 'small') + 18 : 0;
  const gap = k => isColumn ? APART_IN_COLUMN : Math.max(APART, ...near.filter(it => Math.min(it.from, it.to) === k).map(wide));
  let along = isColumn ? HEAD + 12 : EDGE + 10;
  children.forEach((child, k) => {
    if (isColumn) child[thick] = widest;
    child[start] = along;
    child[side] = before + (widest - child[thick]) / 2;
    along += child[length] + (k < children.length - 1 ? gap(k) : 0);
  });
  const size = isColumn ? { h: along + EDGE, w: before + widest + behind } : { w: along + EDGE, h: before + widest + behind };
  box.w = Math.max(size.w, title);
  box.h = size.h;

  for (const it of near) {
    const [from, to] = [children[it.from], children[it.to]], isForward = it.from < it.to;
    const isBothWays = near.some(other => other.from === it.to && other.to === it.from);
    const low = Math.max(from[side], to[side]), high = Math.min(from[side] + from[thick], to[side] + to[thick]);
    const across = (low + high) / 2 + (isBothWays ? (isForward ? -1 : 1) * Math.min(8, (high - low) / 4) : 0);
    const begin = isForward ? from[start] + from[length] : from[start], end = isForward ? to[start] : to[start] + to[length];
    it.points = [point(begin, across), point(end, across)];
    it.words = label(it);
    it.where = [(begin + end) / 2, across + (isBothWays && !isForward ? 11 : -4)];
  }
  for (const [list, isOver] of [[over, true], [under, false]]) {
    givePorts(children, list, isOver, it => it[start], it => it[length]);
    const edge = isOver ? before : before + widest;
    for (const it of list) {
      const across = isOver ? edge - 10 - it.lane * lane : edge + 10 + it.lane * lane;
      const border = child => isOver ? child[side] : child[side] + child[thick], [from, to] = [children[it.from], children[it.to]];
      it.points = [point(it.begin, border(from)), point(it.begin, across), point(it.end, across), point(it.end, border(to))];
      it.words = shortened(label(it), Math.floor(Math.abs(it.end - it.begin) / 6.2));
      // Between the posts of the lanes beyond, where there is room.
      const half = measure(it.words, 'small') / 2 + 3;
      const posts = list.filter(other => other.lane > it.lane).flatMap(other => [other.begin, other.end]);
      const places = [5, 4, 6, 3, 7, 2, 8].map(tenth => it.begin + (it.end - it.begin) * tenth / 10);
      const free = places.find(place => posts.every(post => Math.abs(post - place) > half));
      it.where = [free ?? (it.begin + it.end) / 2, across + (isOver ? -3 : 11)];
    }
  }
  for (const it of arrows.filter(other => other.from === other.to)) {
    const child = children[it.from];
    it.loop = [child.x + child.w - 14, child.y];
    it.words = '';
  }
  box.arrows = arrows;
}

// Returns the box of a state, with those of what is inside it. Of an array the element that `shown` has at its path is laid out. `measure`
// gives the width of words that are written `name` or `small`.
export function layOut(state, path, shown, measure, index = 0) {
  const name = state.name + (index ? `[${index}]` : '');
  const box = { state, path, index, name, children: [], arrows: [], trigger: '', x: 0, y: 0, isParallel: false };
  box.children = state.children.map(child => {
    const place = `${path}.${child.name}`, at = child.size ? Math.min(shown.get(place) || 1, child.size) : 0;
    return layOut(child, place + (at ? `[${at}]` : ''), shown, measure, at);
  });
  box.note = state.size > 1 ? `of ${state.size}` : '';
  const own = new Set(state.transitions.map(it => referenceText(it.event)));
  const more = [box.note, own.size === 1 ? `on ${[...own][0]}` : ''].filter(Boolean);
  const title = more.reduce((sum, words) => sum + 11 + measure(words, 'small'), 26 + measure(box.name, 'name'));
  if (!box.children.length) Object.assign(box, { w: Math.max(62, title), h: LEAF });
  else if (state.kind === 'all') layParallel(box, title);
  else layComponent(box, title, measure);
  return box;
}
