// Reads what `explain` writes: the report, and behind it the comment lines, in both their forms: with `error: ` at the head of each
// finding and fault, and without. The page ships with its program, and web/test.sh compares the two.

const NUMBERS = 'no|two|three|four|five|six|seven|eight|nine|ten|\\d+';
const FINDING = new RegExp(`^(${NUMBERS}) (transitions?|cases?) (?:is|are) enabled in (.*?)(?: on (.*))?$`);
const LOOP = /^(.*) is raised again by a chain of (?:\d+ transitions?)$/;
const CLASH = /^(.*) and (.*) clash in round (\d+) after (.*)$/;
const MEND = /^ {2}(?:either |or )?the row `(.*)`, added to the table at (\d+):(\d+), would mend this$/;

// The lines of the report, as they stand before the first comment line.
function readReport(lines, answer) {
  for (const line of lines) {
    const [word, ...words] = line.split(' ');
    if (word === 'specification') answer.name = words[0];
    else if (word === 'groups') answer.groups = +words[0];
    else if (word === 'chain') answer.chains.push({ event: words[0], length: words[1] });
    else if (word === 'refused') answer.refused = +words[0];
    else if (word === 'fault' || word === 'usage:') answer.fault = line;
    else if (word === 'none' || word === 'two') answer.worlds.push([]);
    else if (line.startsWith('  ') && line.endsWith(' | T')) answer.worlds.at(-1).push(line.slice(2, -4));
  }
}

// What a line with a place begins, or null where it belongs to what came before.
function headOf(said, status) {
  const isMarked = said.startsWith('error: '), text = isMarked ? said.slice(7) : said;
  if (text.startsWith('note: ')) return { kind: 'note', said: text.slice(6), source: [] };
  if (status === 2) return { kind: 'fault', said: text, source: [] };
  let it = FINDING.exec(text);
  if (it) return {
    kind: it[1] === 'no' ? 'none' : 'two', count: it[1], what: it[2], group: it[3], event: it[4] || '', said: text,
    world: [], members: [], mends: [],
  };
  if ((it = LOOP.exec(text))) return { kind: 'loop', event: it[1], said: text, chain: [] };
  if ((it = CLASH.exec(text))) return { kind: 'clash', one: it[1], two: it[2], round: it[3], after: it[4], said: text, meet: [], chains: [] };
  return isMarked ? { kind: 'fault', said: text, source: [] } : null;
}

// A further line with a place: a member of a group, or a transition of a chain.
function addPlaced(it, step) {
  if (it.members) it.members.push({ ...step, rows: [], holds: '' });
  else if (it.kind === 'loop') it.chain.push(step);
  else if (it.kind === 'clash') (it.chains.length ? it.chains.at(-1).steps : it.meet).push(step);
  else return false;
  return true;
}

function addToGroup(it, said) {
  const member = it.members.at(-1), cell = /^ {4}(\S.*?)\s+= (\S+)$/.exec(said), row = /^ {4}(.*?)\s*\| ([TF.! ]+)$/.exec(said);
  const mend = MEND.exec(said);
  if (said === '  where') return;
  if (!member && cell) it.world.push([cell[1], cell[2]]);
  else if (member && row) member.rows.push({ phrase: row[1], cells: row[2].trim().split(/\s+/) });
  else if (member && /^ {4}(?:always|no column holds|columns? .* holds?)$/.test(said)) member.holds = said.trim();
  else if (mend) it.mends.push({ row: mend[1], line: +mend[2], column: +mend[3] });
  else it.hints.push(said.trim());
}

function addLine(it, said) {
  const chain = /^ {2}a chain to (.*)$/.exec(said);
  if (it.members) addToGroup(it, said);
  else if (it.kind === 'clash' && chain) it.chains.push({ to: chain[1], steps: [] });
  else if (it.source && said.startsWith('    ')) it.source.push(said.slice(4));
  else it.hints.push(said.trim());
}

// Returns what was written of the specification in the file of this name: faults, findings and notes, each with its place.
export function readAnswer(output, status, file) {
  const answer = {
    status, name: '', groups: 0, chains: [], refused: 0, fault: '', worlds: [], faults: [], findings: [], notes: [], others: [],
  };
  const lines = output.split('\n').filter(Boolean), first = lines.findIndex(line => line.startsWith('# '));
  readReport(first < 0 ? lines : lines.slice(0, first), answer);
  let item = null;
  for (const line of first < 0 ? [] : lines.slice(first)) {
    const said = line.slice(2), place = said.startsWith(`${file}:`) && /^(\d+):(\d+): (.*)$/.exec(said.slice(file.length + 1));
    const head = place && headOf(place[3], status);
    if (head) {
      item = { line: +place[1], column: +place[2], hints: [], ...head };
      (item.kind === 'note' ? answer.notes : item.kind === 'fault' ? answer.faults : answer.findings).push(item);
    } else if (place) {
      if (!item || !addPlaced(item, { line: +place[1], column: +place[2], said: place[3] })) answer.others.push(said);
    } else if (item) addLine(item, said);
    else answer.others.push(said.trim());
  }
  // The report tells its worlds in the order of the findings.
  answer.findings.filter(it => it.members).forEach((it, k) => { it.whole = answer.worlds[k] || []; });
  return answer;
}

// The parts of a label as `Cabin.Door[1] 2 move Shut -> Open`, or null for a case.
export function readLabel(said) {
  const it = /^(\S+) (\d+) (move|stay) (\S+)(?: -> (\S+))?/.exec(said);
  return it && { component: it[1], ordinal: +it[2], verb: it[3], source: it[4], target: it[5] ? it[5].split('.') : null };
}

// The rows of a world, where neighbours of an array with one value stand as one: `[name, value, name of the first]`.
export function spans(world) {
  const found = [];
  for (const [name, value] of world) {
    const it = /^(.*)\[(\d+)\]$/.exec(name), last = found.at(-1);
    if (it && last && last.base === it[1] && last.value === value && last.to === +it[2] - 1) last.to++;
    else found.push({ name, value, base: it && it[1], from: it && +it[2], to: it && +it[2] });
  }
  return found.map(it => [it.base && it.to > it.from ? `${it.base}[${it.from} to ${it.to}]` : it.name, it.value, it.name]);
}

// What one finding has in common with those of other elements of an array.
const alike = it => JSON.stringify([it.kind, it.count, it.group, it.event, it.line, it.world, it.members, it.mends, it.hints])
  .replace(/\[\d+\]/g, '[k]');

// The findings, where those of the elements of one array stand in one list.
export function families(findings) {
  const found = new Map();
  for (const it of findings) {
    const key = it.members ? alike(it) : it;
    found.set(key, [...(found.get(key) || []), it]);
  }
  return [...found.values()];
}
