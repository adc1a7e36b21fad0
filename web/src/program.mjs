// Runs the program. Each run has a new instance of the module, so nothing is left of an earlier one, nor of one that failed.

// Returns the status, the bytes that were written and the time taken in milliseconds. `files` has bytes or texts by their names.
export async function runProgram(module, words, files) {
  const { exports: it } = await WebAssembly.instantiate(module, {});
  const put = content => {
    const bytes = typeof content === 'string' ? new TextEncoder().encode(content) : content;
    const at = Number(it.room(BigInt(bytes.length + 1))) >>> 0;
    if (!at) throw new Error('there is not enough memory for the text');
    new Uint8Array(it.memory.buffer, at, bytes.length).set(bytes);
    return [BigInt(at), BigInt(bytes.length)];
  };
  for (const word of ['rsml', ...words]) it.word(...put(word));
  for (const [name, content] of Object.entries(files)) it.file(...put(name), ...put(content));
  const start = performance.now();
  const status = it.run();
  const took = performance.now() - start;
  const at = Number(it.output()) >>> 0, size = Number(it.output_size());
  return { status, took, output: new Uint8Array(it.memory.buffer, at, size).slice() };
}
