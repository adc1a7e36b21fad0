// Draws the states. What is marked is also written: a sign stands at what is active, found or taken, so that no colour says it alone.
import { $, draw } from './elements.mjs';
import { goTo } from './editor.mjs';
import { guardTable, transitionText } from './guards.mjs';
import { layOut } from './layout.mjs';

const FONTS = { name: '600 12px system-ui, sans-serif', small: '10.5px system-ui, sans-serif' };
const context = document.createElement('canvas').getContext('2d');
const measure = (words, kind) => {
  context.font = FONTS[kind];
  return context.measureText(words).width;
};

export const noMarks = () => ({ active: new Set(), found: new Map(), taken: new Set(), stays: new Set() });
export const arrowKey = (component, source, target) => `${component}|${source}->${target}`;

// A way of straight lines with round corners.
function way(points) {
  let path = `M${points[0]}`;
  points.slice(1, -1).forEach((corner, k) => {
    const toward = other => {
      const [dx, dy] = [other[0] - corner[0], other[1] - corner[1]], far = Math.hypot(dx, dy) || 1, by = Math.min(6, far / 2);
      return [corner[0] + dx * by / far, corner[1] + dy * by / far];
    };
    path += `L${toward(points[k])}Q${corner} ${toward(points[k + 2])}`;
  });
  return `${path}L${points.at(-1)}`;
}

// Words beside the pointer.
function hint(element, words) {
  const tip = $('tip');
  element.onmousemove = event => {
    tip.textContent = words();
    tip.hidden = false;
    const below = event.clientY + 18, isLow = below + tip.offsetHeight > innerHeight;
    tip.style.left = `${Math.max(4, Math.min(event.clientX + 14, innerWidth - tip.offsetWidth - 8))}px`;
    tip.style.top = `${isLow ? Math.max(4, event.clientY - tip.offsetHeight - 12) : below}px`;
  };
  element.onmouseleave = () => { tip.hidden = true; };
}

const KINDS = { basic: 'a basic state', one: 'exactly one of its children is active', all: 'all of its children are active' };
const moveText = it => `${transitionText(it)}, line ${it.line}\n${guardTable(it.guard).replace(/^/gm, '    ')}`;

function arrowElement(it, box, marks, id) {
  const isTaken = marks.taken.has(arrowKey(box.path, it.source, it.target));
  const [x, y] = it.loop || [];
  const d = it.points ? way(it.points) : `M${x - 8},${y}C${x - 12},${y - 17} ${x + 14},${y - 17} ${x + 4},${y}`;
  const hit = draw('path', { class: 'hit', d, onclick: () => goTo(it.moves[0].line) });
  hint(hit, () => it.moves.map(moveText).join('\n\n'));
  return draw('g', { class: `arrow${isTaken ? ' taken' : ''}`, 'data-arrow': arrowKey(box.path, it.source, it.target) },
    draw('path', { class: 'line', d, 'marker-end': `url(#${id}-${isTaken ? 'taken' : 'plain'})` }),
    it.words && draw('text', { x: it.where[0], y: it.where[1], 'text-anchor': 'middle' }, it.words), hit);
}

function titleElements(box, signs) {
  const x = box.children.length ? 11 : 12, y = box.children.length ? 17 : 20.5, found = [draw('text', { class: 'name', x, y }, box.name)];
  let right = x + measure(box.name, 'name') + 8;
  for (const words of [box.note, box.trigger && `on ${box.trigger}`]) if (words) {
    found.push(draw('text', { class: 'dim', x: right, y }, words));
    right += measure(words, 'small') + 8;
  }
  if (signs) found.push(draw('text', { class: 'sign', x: box.w - 5, y: box.children.length ? 17 : 12, 'text-anchor': 'end' }, signs));
  return found;
}

function boxElement(box, marks, id) {
  const { state, path } = box, found = marks.found.get(path), isActive = marks.active.has(path), isStay = marks.stays.has(path);
  const kinds = [!box.children.length && 'leaf', isActive && 'active', found && 'found', isStay && 'stay', box.isParallel && 'parallel'];
  const kind = kinds.filter(Boolean).join(' ');
  const frame = draw('rect', { class: 'box', width: box.w, height: box.h, rx: 8, onclick: () => goTo(state.line) });
  hint(frame, () => [path, KINDS[state.kind], found, isStay && 'stays', `line ${state.line}`].filter(Boolean).join('\n'));
  const signs = `${found ? '!' : ''}${isStay ? '↻' : ''}${isActive && !box.children.length ? '●' : ''}`;
  const arrows = box.arrows.map(it => arrowElement(it, box, marks, id)), isTaken = it => it.classList.contains('taken');
  return draw('g', { class: `state ${kind}`, 'data-path': path, transform: `translate(${box.x},${box.y})` },
    state.size > 1 && [6, 3].map(by => draw('rect', { class: 'behind', x: by, y: -by, width: box.w, height: box.h, rx: 8 })),
    frame, titleElements(box, signs), arrows.filter(it => !isTaken(it)),
    box.children.map(child => [
      boxElement(child, marks, id),
      state.kind === 'one' && child.state.name === state.first && [
        draw('circle', { class: 'start', cx: child.x - 9, cy: child.y - 6, r: 3.6 }),
        draw('path', { class: 'start', d: `M${child.x - 9},${child.y - 6}L${child.x + 1.5},${child.y + 5}`, 'marker-end': `url(#${id}-plain)` }),
      ],
    ]),
    arrows.filter(isTaken));
}

function tipElement(id, kind, size) {
  const place = { viewBox: '0 0 8 8', refX: 7, refY: 4, markerWidth: size, markerHeight: size, orient: 'auto-start-reverse' };
  return draw('marker', { id: `${id}-${kind}`, class: `tip ${kind}`, ...place }, draw('path', { d: 'M0,0.6L8,4L0,7.4z' }));
}

// Returns the picture at its own size, 1 to 1. `id` tells it from the others of the page, and `label` says what is shown.
export function picture(spec, shown, marks, id, label) {
  const box = layOut(spec.top, spec.top.name, shown, measure), w = Math.ceil(box.w + 24), h = Math.ceil(box.h + 24);
  return draw('svg', { class: 'states', width: w, height: h, viewBox: `-12 -12 ${w} ${h}`, role: 'img', 'aria-label': label },
    draw('defs', {}, tipElement(id, 'plain', 8), tipElement(id, 'taken', 5)), boxElement(box, marks, id));
}

// Puts a picture into its place: as large as fits, or so many times its own size.
export function placePicture(host, svg, zoom) {
  const [w, h] = [+svg.getAttribute('width'), +svg.getAttribute('height')];
  const fit = Math.max(0.3, Math.min(1.35, (host.clientWidth - 24) / w, Math.max((host.clientHeight - 24) / h, 0.6))), scale = zoom || fit;
  svg.setAttribute('width', w * scale);
  svg.setAttribute('height', h * scale);
  const { scrollLeft, scrollTop } = host;
  host.replaceChildren(svg);
  host.scrollTo(scrollLeft, scrollTop);
  return scale;
}
