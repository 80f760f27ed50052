// Runs the commands beside the page, which stays alive meanwhile. The first message brings the module, as bytes by name.
import { isWide, run } from "./vc4check.mjs";

const OLD = "This browser is too old: it needs WebAssembly with a 64-bit memory, as Chrome and Edge have from 133 on, and Firefox from 134 on.";
let module = null;

/** The bytes of a module, which are packed or lie beside the page. */
async function bytesOf(packed, name) {
  if (!packed) {
    const answer = await fetch(name);
    return answer.ok ? answer.arrayBuffer() : null;
  }
  if (!packed[name]) return null;
  const bytes = Uint8Array.from(atob(packed[name]), (it) => it.charCodeAt(0));
  return new Response(new Blob([bytes]).stream().pipeThrough(new DecompressionStream("gzip"))).arrayBuffer();
}

async function compiled(packed) {
  const bytes = await bytesOf(packed, isWide() ? "vc4check.wasm" : "vc4check32.wasm");
  if (!bytes) throw new Error(OLD);
  return WebAssembly.compile(bytes);
}

onmessage = async ({ data: { packed, id, words, input } }) => {
  if (!id) {
    module = compiled(packed);
    module.catch(() => {}); // each call says it
    return;
  }
  try {
    const ready = await module;
    const start = performance.now();
    const answer = run(ready, words, input);
    postMessage({ id, answer, ms: performance.now() - start }, [answer.text.buffer]);
  } catch (error) {
    postMessage({ id, error: String(error.message ?? error) });
  }
};
