// A form for each receive, which makes an event line of what is chosen.
import { make } from './elements.mjs';
import { cellsOf, instancesOf } from './instances.mjs';

let shownOf = null, held = null, sent = '';

// The control of one field: the values of an enumeration, or a number of a range.
function control(spec, input, value) {
  const values = spec.enumerations[input.type], [min, max] = spec.ranges[input.type] || [];
  const it = values ? make('select', {}, values.map(other => make('option', {}, other)))
    : make('input', { type: 'number', required: true, step: 1, min, max, title: min === undefined ? null : `${min} to ${max}` });
  it.value = value;
  return it;
}

function form(spec, receive, cells, send) {
  const fields = [], inputs = make('span', { class: 'fields' });
  const index = receive.size ? make('select', { 'aria-label': `Index of ${receive.name}`, onchange: fill },
    instancesOf(receive).map((_, k) => make('option', {}, k + 1))) : null;
  // The fields begin with what their cells hold; the cells follow the index.
  function fill() {
    const names = cellsOf(spec, receive, index ? index.value : null);
    fields.length = 0;
    inputs.replaceChildren(...receive.fields.map((field, k) => {
      const it = control(spec, spec.inputs[field.name], cells.get(names[k]) ?? '');
      fields.push([field.name, it]);
      return make('label', {}, `${field.name} `, it);
    }));
  }
  fill();
  const submit = event => {
    event.preventDefault();
    sent = receive.name;
    send([receive.name + (index ? `[${index.value}]` : ''), ...fields.map(([name, it]) => `${name}=${it.value}`)].join(' '));
  };
  return make('form', { onsubmit: submit, 'data-receive': receive.name }, make('b', {}, receive.name), index, inputs, make('button', {}, 'Send'));
}

// Fills the place of the forms; `step` is the last one. While somebody fills one in they stay, as long as the specification does; who has
// sent a message is at its button again.
export function senderForms(host, spec, step, send) {
  if (spec === shownOf && (step === held || (!sent && host.contains(document.activeElement)))) return;
  shownOf = spec;
  held = step;
  host.replaceChildren(...(spec && step ? spec.receives.map(it => form(spec, it, step.cells, send)) : []));
  const again = sent && host.querySelector(`[data-receive="${sent}"] button`);
  if (again) again.focus();
  sent = '';
}
