// The instances of a specification: components, cells, and the states that are active with given children.

// Calls `visit` on each state instance with its path, a state before what is inside it.
function walk(state, path, visit) {
  if (visit(state, path) === false) return;
  for (const child of state.children)
    for (const name of instancesOf(child)) walk(child, `${path}.${name}`, visit);
}

// The names of the instances of something that may have a size.
export function instancesOf(it) {
  return it.size ? Array.from({ length: it.size }, (_, k) => `${it.name}[${k + 1}]`) : [it.name];
}

// All components by their paths.
export function components(spec) {
  const found = new Map();
  walk(spec.top, spec.top.name, (state, path) => { if (state.kind === 'one') found.set(path, state); });
  return found;
}

// The child of each component at the start.
export function firstChildren(spec) {
  return new Map([...components(spec)].map(([path, state]) => [path, state.first]));
}

// The paths that are active where the components have these children.
export function activeIn(spec, children) {
  const found = new Set();
  walk(spec.top, spec.top.name, (state, path) => {
    const dot = path.lastIndexOf('.'), chosen = children.get(path.slice(0, dot));
    if (chosen !== undefined && chosen !== path.slice(dot + 1)) return false;
    found.add(path);
  });
  return found;
}

export const initialOf = (spec, input) => String(spec.constants[input.initial] ?? input.initial);

// Each cell with its value at the start.
export function firstCells(spec) {
  const found = new Map();
  for (const input of Object.values(spec.inputs)) for (const cell of instancesOf(input)) found.set(cell, initialOf(spec, input));
  return found;
}

// The cells that a receive writes, in the order of its fields; `index` is that of the instance.
export function cellsOf(spec, receive, index) {
  return receive.fields.map(field => {
    const at = field.index === 'this' ? index : field.index === null ? null : spec.constants[field.index] ?? field.index;
    return field.name + (at === null ? '' : `[${+at}]`);
  });
}

// The children of a bus, or the one child of this name.
export const sourcesOf = (component, name) => component.buses[name] || [name];
