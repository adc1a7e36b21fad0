// The verdict in words.
import { plural } from './texts.mjs';

export const CERTIFIED = 'For each state and each event that it reacts to, whatever the inputs are, exactly one transition is enabled. '
  + 'No event sets itself off again, and no two events clash. So every event file has exactly one run.';
export const LIMIT = 'That the specification says what its authors want is not decided. “Certified” is this program’s word; it is no approval '
  + 'by an authority.';

const KINDS = [['none', 'gap'], ['two', 'contradiction'], ['loop', 'loop'], ['clash', 'clash', 'clashes']];
const OTHERS = { 5: 'A file was not read', 6: 'The output was not written', 7: 'Out of memory', 8: 'The text is too long' };
const REASONS = {
  7: 'This is no verdict. The command line may have more memory than this page.',
  8: 'A specification has at most 1,048,576 bytes.',
};

// Of a run of `explain` and of what was read of it: `kind` is good, bad or fault, and `mark` a sign for it.
export function verdictOf(got, answer) {
  const fault = (head, more) => ({ kind: 'fault', mark: '!', head, more });
  if (!got) return fault('Reading', '');
  if (got.failed) return fault('No answer', got.failed);
  const groups = plural(answer.groups, 'group');
  if (answer.status === 0) return {
    kind: 'good', mark: '✓', head: `${answer.name} is certified`,
    more: `Complete and free of contradiction: in each of ${groups}, whatever the inputs, exactly one answer is enabled.`,
  };
  if (answer.status === 1) {
    const counts = KINDS.map(([kind, ...words]) => [answer.findings.filter(it => it.kind === kind).length, ...words]);
    const found = counts.filter(([n]) => n).map(it => plural(...it)).join(', ');
    return { kind: 'bad', mark: '✗', head: `${answer.name} is refused`, more: `${found} in ${groups}` };
  }
  const [first, ...others] = answer.faults;
  const head = first ? `Line ${first.line}: ${first.said}` : OTHERS[answer.status] || answer.fault || `Status ${answer.status}`;
  const more = [answer.fault, others.length ? `and ${plural(others.length, 'more fault')}` : '', REASONS[answer.status]];
  return fault(head, more.filter(Boolean).join(' · '));
}
