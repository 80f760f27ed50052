// What a job file's table says, as far as the file holds it; also of a refused file. No proof covers this: it places and names, and judges nothing.
const SVG = "http://www.w3.org/2000/svg";
const SLOT = 524288;
const BOXES = 512;
const COLUMNS = 32;
const MOST = 1000; // buffers that are drawn

/** A file's memory, its parts there with their places, and the contents of its code buffers; or null where there is no whole header. */
export function tableOf(bytes) {
  const view = new DataView(bytes.buffer, bytes.byteOffset, bytes.length);
  const words = (at, count) => Array.from({ length: count }, (_, i) => view.getUint32(at + 4 * i, true));
  if (bytes.length < 36) return null;
  const [memory, lists, size, slots, count, buffers, jobs] = words(8, 7);
  const parts = [{ kind: "lists", at: lists, size }, { kind: "slots", at: slots, size: count * SLOT }];
  const shaders = [];
  let content = 36 + 20 * buffers + 124 * jobs;
  for (let number = 0; number < buffers && 56 + 20 * number <= bytes.length; number++) {
    const [at, size, client, kind, given] = words(36 + 20 * number, 5);
    parts.push({ number, client, kind: kind === 1 ? "code" : "data", at, size });
    if (kind === 1 && content + given <= bytes.length) shaders.push({ number, code: bytes.slice(content, content + given) });
    content += given;
  }
  return { memory, parts, shaders };
}

const made = (name, attributes, ...children) => {
  const it = document.createElementNS(SVG, name);
  for (const [key, value] of Object.entries(attributes)) it.setAttribute(key, value);
  it.append(...children);
  return it;
};

/** The style of such a drawing, whose colours are those of `vc4check picture`. */
export const STYLE = `.none{fill:#eee}.slots{fill:#009e73}.lists{fill:#555}.data{fill:#3182bd}.code{fill:#e6550d}.several{fill:#f0e442}
rect{stroke:#fff} svg{font:14px sans-serif}`;

/** The memory as boxes, each of what lies in it. */
export function drawTable({ memory, parts }) {
  const box = 2 ** Math.max(4, Math.ceil(Math.log2(Math.max(memory, 1) / BOXES)));
  const kinds = new Array(Math.ceil(memory / box)).fill("none");
  for (const { kind, at, size } of parts.slice(0, MOST))
    for (let i = Math.floor(at / box); i < Math.min(Math.ceil((at + size) / box), kinds.length); i++)
      kinds[i] = kinds[i] === "none" || kinds[i] === kind ? kind : "several";
  const rects = kinds.map((kind, i) => made("rect", { x: 18 * (i % COLUMNS), y: 14 * Math.floor(i / COLUMNS), width: 18, height: 14, class: kind }));
  const height = 14 * Math.ceil(kinds.length / COLUMNS);
  const names = { slots: "tile slots", lists: "lists", data: "data buffer", code: "code buffer", several: "several", none: "nothing" };
  const legend = Object.entries(names).flatMap(([kind, name], i) => [
    made("rect", { x: 116 * i, y: height + 10, width: 18, height: 14, class: kind }),
    made("text", { x: 116 * i + 22, y: height + 22, fill: "#222" }, name),
  ]);
  return made("svg", { viewBox: `0 0 700 ${height + 30}`, width: 700, height: height + 30, role: "img" }, made("title", {}, "Memory of the file's table"), ...rects, ...legend);
}

/** What is odd about where a part lies: the page's own remark. */
export function remark(part, { memory, parts }) {
  if (part.at + part.size > memory) return "ends past the memory";
  const other = parts.slice(0, MOST).find((it) => it !== part && it.at < part.at + part.size && part.at < it.at + it.size);
  return other ? `shares bytes with ${nameOf(other)}` : "";
}

export const nameOf = ({ kind, number }) => (number === undefined ? (kind === "slots" ? "tile slots" : "lists") : `buffer ${number}`);
