// Whether the page can be used by keys and by ear, as far as a program can tell: names, headings, ids, contrast.

// Runs in the page, and returns what is wrong there.
function look() {
  const found = [], isShown = it => it.checkVisibility() && !it.closest('[aria-hidden=true], dialog:not([open])');
  const textOf = it => it ? it.textContent.trim() : '';
  const nameOf = it => it.getAttribute('aria-label')
    || (it.getAttribute('aria-labelledby') || '').split(' ').map(id => textOf(document.getElementById(id))).join(' ').trim()
    || [...(it.labels || [])].map(textOf).join(' ').trim() || textOf(it) || it.title;
  const named = 'button, select, input, textarea, a, summary, dialog, [role=tab], [role=tabpanel], [role=group], [role=img]';
  for (const it of document.querySelectorAll(named)) if (isShown(it) && !nameOf(it)) found.push(`no name: ${it.outerHTML.slice(0, 80)}`);

  let last = 0;
  for (const it of document.querySelectorAll('h1, h2, h3, h4, h5')) {
    if (!isShown(it)) continue;
    const level = +it.tagName[1];
    if (level > last + 1) found.push(`a level is left out before: ${textOf(it).slice(0, 60)}`);
    last = level;
  }

  const ids = [...document.querySelectorAll('[id]')].map(it => it.id);
  for (const id of new Set(ids)) if (ids.indexOf(id) !== ids.lastIndexOf(id)) found.push(`twice: ${id}`);

  // Colours as red, green, blue from 0 to 255, and how much they cover.
  const colour = text => {
    const part = /^color\(srgb ([\d.]+) ([\d.]+) ([\d.]+)(?: \/ ([\d.]+))?\)/.exec(text);
    if (part) return [...part.slice(1, 4).map(x => x * 255), +(part[4] ?? 1)];
    const whole = /^rgba?\((\d+), (\d+), (\d+)(?:, ([\d.]+))?\)/.exec(text);
    return whole ? [...whole.slice(1, 4).map(Number), +(whole[4] ?? 1)] : [0, 0, 0, 0];
  };
  const linear = x => x / 255 <= 0.04045 ? x / 255 / 12.92 : ((x / 255 + 0.055) / 1.055) ** 2.4;
  const light = ([r, g, b]) => 0.2126 * linear(r) + 0.7152 * linear(g) + 0.0722 * linear(b);
  const ground = it => {
    const layers = [];
    for (let at = it; at && (!layers.length || layers.at(-1)[3] < 1); at = at.parentElement) layers.push(colour(getComputedStyle(at).backgroundColor));
    return layers.reverse().reduce((below, layer) => below.map((x, k) => layer[k] * layer[3] + x * (1 - layer[3])), [255, 255, 255]);
  };
  const walker = document.createTreeWalker(document.body, NodeFilter.SHOW_TEXT), seen = new Set();
  const apart = 'svg, script, style, option, .heard, #text, :disabled, dialog:not([open])';
  for (let node; (node = walker.nextNode());) {
    const it = node.parentElement;
    if (!node.textContent.trim() || seen.has(it) || !it.checkVisibility() || it.closest(apart)) continue;
    seen.add(it);
    const style = getComputedStyle(it), [more, less] = [light(colour(style.color)), light(ground(it))].sort((a, b) => b - a);
    const ratio = (more + 0.05) / (less + 0.05), isLarge = parseFloat(style.fontSize) >= 18.66 && +style.fontWeight >= 700;
    if (ratio < (isLarge ? 3 : 4.5)) found.push(`contrast ${ratio.toFixed(2)}: ${it.tagName}.${it.className} ${node.textContent.trim().slice(0, 30)}`);
  }
  return [...new Set(found)];
}

const LOOKED_AT = {
  'alerter.rsml': ['findings', 'states', 'notation'],
  'cruise_control/cruise_control.rsml': ['findings', 'simulate', 'matrix', 'requirements', 'report', 'review'],
  'guide/01_mistake.rsml': ['findings'],
};

export async function access(browser, { open, show, wait, check, same, shot }) {
  const looked = () => browser.evaluate(`(${look})()`);
  for (const value of ['light', 'dark']) {
    await browser.send('Emulation.setEmulatedMedia', { media: '', features: [{ name: 'prefers-color-scheme', value }] });
    for (const [example, tabs] of Object.entries(LOOKED_AT)) {
      await show(example);
      for (const tab of tabs) {
        await open(tab);
        if (tab === 'simulate') await wait(`document.querySelectorAll('#trace > ol > li').length > 0`);
        same(await looked(), [], `${tab} of ${example}, ${value}`);
        if (value === 'dark') await shot(`dark-${tab}`);
      }
    }
  }
  await browser.evaluate(`document.getElementById('about-open').click()`);
  same(await looked(), [], 'About');
  check(await browser.evaluate(`document.getElementById('about-text').textContent.length > 500`), 'About tells what is proved');
  await shot('about');
  await browser.evaluate(`document.getElementById('about').close()`);
  await browser.send('Emulation.setEmulatedMedia', { media: '', features: [] });
}
