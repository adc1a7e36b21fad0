// The worker: it holds the module, and runs the program for the page.
import { runProgram } from './program.mjs';

let module;
onmessage = async ({ data }) => {
  if (data.module) {
    module = WebAssembly.compile(data.module);
    module.then(() => postMessage({ isReady: true }), error => postMessage({ isReady: false, failed: String(error.message) }));
    return;
  }
  try {
    const got = await runProgram(await module, data.words, data.files);
    postMessage({ id: data.id, ...got }, [got.output.buffer]);
  } catch (error) {
    postMessage({ id: data.id, failed: String((error && error.message) || error) });
  }
};
