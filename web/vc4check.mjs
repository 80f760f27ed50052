// The program's commands as calls of a WebAssembly module.
//
// The module is proved code (crates/vc4check_web) with an allocator (heap.c). Its addresses have 64 bits, and are BigInts here. A call has an
// instance of its own: none sees what another left, a trap harms no later one, and the memory that it took goes with it.
const SLICE = 16; // an address and a length
const LINE = 4096;
const FIRST = 1 << 20;
const NO_MEMORY = 5;

/** Whether this engine has memories with 64-bit addresses, tried by a module that has one of no page. */
export const isWide = () => WebAssembly.validate(new Uint8Array([0, 97, 115, 109, 1, 0, 0, 0, 5, 3, 1, 4, 0]));

/** One call, with so much room for its text. */
function called(module, words, input, room) {
  const { memory, take, vc4check_run } = new WebAssembly.Instance(module).exports;
  const block = (size) => {
    const at = take(BigInt(size));
    if (at === 0n) throw new Error("memory ran out");
    return at;
  };
  const put = (bytes) => {
    const at = block(bytes.length);
    new Uint8Array(memory.buffer, Number(at), bytes.length).set(bytes);
    return [at, BigInt(bytes.length)];
  };
  const slices = words.map((word) => put(new TextEncoder().encode(word)));
  const list = block(SLICE * words.length);
  const given = put(input);
  const [text, line, lengths] = [block(room), block(LINE), block(SLICE)];
  new BigUint64Array(memory.buffer, Number(list), 2 * words.length).set(slices.flat());
  const status = vc4check_run(list, BigInt(words.length), ...given, text, BigInt(room), line, BigInt(LINE), lengths);
  if (status === NO_MEMORY) return { status, length: 0, text: new Uint8Array(0), line: "" };
  // Anew, since the memory may have grown.
  const [length, said] = [...new BigUint64Array(memory.buffer, Number(lengths), 2)].map(Number);
  const bytes = (at, count) => new Uint8Array(memory.buffer, Number(at), count).slice();
  return { status, length, text: bytes(text, Math.min(length, room)), line: new TextDecoder().decode(bytes(line, Math.min(said, LINE))) };
}

/** What the program answers to these words and this input: its status, its text as bytes, and what it tells a person besides. */
export function run(module, words, input) {
  const room = Math.max(FIRST, 4 * input.length);
  const answer = called(module, words, input, room);
  return answer.length <= room ? answer : called(module, words, input, answer.length);
}
