// The states as a text for Mermaid, which GitLab, GitHub and others draw. Elements of an array are told once, and stays are left out.
import { sourcesOf } from './instances.mjs';
import { guardText, referenceText } from './guards.mjs';

const MOST = 60;
// Signs that have a meaning of their own in Mermaid.
const plain = text => text.replace(/[;#{}"]/g, it => `#${it.charCodeAt(0)};`).replace(/:/g, '#58;');

export function mermaid(spec) {
  const lines = ['stateDiagram-v2'], ids = new Set();
  // Ids are of the whole diagram.
  const idOf = path => {
    let id = path.replace(/[^\p{L}\p{N}_]/gu, '_');
    while (ids.has(id)) id += '_';
    ids.add(id);
    return id;
  };
  const arrow = (from, to, it, depth) => {
    const guard = it.guard ? ` [${guardText(it.guard, MOST)}]` : '';
    const raised = it.raises.length ? ` / ${it.raises.map(referenceText).join(', ')}` : '';
    lines.push(`${'  '.repeat(depth)}${from} --> ${to} : ${plain(referenceText(it.event) + guard + raised)}`);
  };
  (function walk(state, path, id, depth) {
    const room = '  '.repeat(depth), shown = state.name + (state.size ? `[1 to ${state.size}]` : '');
    if (!state.children.length) {
      lines.push(`${room}state "${shown}" as ${id}`);
      return;
    }
    lines.push(`${room}state "${shown}" as ${id} {`);
    const inside = new Map(state.children.map(child => [child.name, idOf(`${path}_${child.name}`)]));
    if (state.kind === 'one') lines.push(`${room}  [*] --> ${inside.get(state.first)}`);
    state.children.forEach((child, k) => {
      if (k && state.kind === 'all') lines.push(`${room}  --`);
      walk(child, `${path}_${child.name}`, inside.get(child.name), depth + 1);
    });
    for (const it of state.transitions) {
      if (it.verb !== 'move') continue;
      // A text that breaks a rule may name a state that is not there.
      for (const source of sourcesOf(state, it.source))
        if (inside.has(source) && inside.has(it.target[0])) arrow(inside.get(source), inside.get(it.target[0]), it, depth + 1);
    }
    lines.push(`${room}}`);
  })(spec.top, spec.top.name, idOf(spec.top.name), 1);
  return `${lines.join('\n')}\n`;
}
