// Tables as Markdown and as comma-separated values. A table has a title, a head and rows of cells.

const inMarkdown = cell => String(cell).replace(/\\/g, '\\\\').replace(/\|/g, '\\|').replace(/\s*\n\s*/g, '<br>');
const inCsv = cell => /[",\n\r]/.test(String(cell)) ? `"${String(cell).replace(/"/g, '""')}"` : String(cell);

export function markdown(table) {
  const row = cells => `| ${cells.map(inMarkdown).join(' | ')} |\n`;
  return row(table.head) + row(table.head.map(() => '---')) + table.rows.map(row).join('');
}

export function csv(table) {
  return [table.head, ...table.rows].map(cells => `${cells.map(inCsv).join(',')}\r\n`).join('');
}

export const plural = (n, one, many = `${one}s`) => `${n.toLocaleString('en')} ${n === 1 ? one : many}`;
