// The tabs of the answers. A command that comes later gets one by a module with a call of `addTab`, and a line in main.mjs.
import { $, make } from './elements.mjs';

const tabs = [];
let current = null;

// `show` fills the panel of the tab. It is called when the tab is opened, and when what it shows has changed while it is open.
export function addTab({ id, label, show }) {
  const panel = $(id);
  const tab = make('button', {
    type: 'button', role: 'tab', id: `tab-${id}`, 'aria-controls': id, 'aria-selected': 'false', tabindex: '-1', onclick: () => openTab(id),
  }, label, make('span', { class: 'count', id: `count-${id}` }));
  panel.setAttribute('role', 'tabpanel');
  panel.setAttribute('aria-labelledby', tab.id);
  panel.tabIndex = 0;
  panel.hidden = true;
  $('tabs').append(tab);
  tabs.push({ id, tab, panel, show });
}

export function openTab(id) {
  for (const it of tabs) {
    const isOpen = it.id === id;
    it.tab.setAttribute('aria-selected', String(isOpen));
    it.tab.tabIndex = isOpen ? 0 : -1;
    it.panel.hidden = !isOpen;
    if (isOpen) current = it;
  }
  current.show();
}

export const openedTab = () => current && current.id;
export function refreshTab(...ids) {
  if (current && (!ids.length || ids.includes(current.id))) current.show();
}

// Shows a number at a tab. `said` is what it counts, for those who hear it.
export function countAt(id, number, said, kind = '') {
  const badge = $(`count-${id}`);
  badge.className = `count ${kind}`;
  badge.replaceChildren(...(number ? [String(number), make('span', { class: 'heard' }, ` ${said}`)] : []));
}

// Arrow keys go from tab to tab, as in other programs.
export function listenAtTabs() {
  $('tabs').onkeydown = event => {
    const at = tabs.indexOf(current), last = tabs.length - 1;
    const to = { ArrowRight: at < last ? at + 1 : 0, ArrowLeft: at ? at - 1 : last, Home: 0, End: last }[event.key];
    if (to === undefined) return;
    event.preventDefault();
    openTab(tabs[to].id);
    tabs[to].tab.focus();
  };
}
