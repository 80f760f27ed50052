// The page: a job or a shader in, and what the commands say of it.
import { STYLE, drawTable, nameOf, remark, tableOf } from "./table.mjs";

/** The examples: which file, what it is, and for a broken one the bytes that are put in. */
const EXAMPLES = {
  textured: { file: "textured", says: "a textured triangle" },
  broken: { file: "textured", says: "a texture larger than its buffer", at: 852, bytes: [0, 0, 2, 32] },
  two: { file: "two", says: "two jobs of two clients" },
  threaded: { file: "threaded", says: "a shader with two threads" },
  smallest: { file: "smallest", says: "the smallest job" },
  loaded: { file: "loaded", says: "a frame that is loaded and stored" },
  frame: { file: "frame", says: "a frame of 1920 by 1080" },
  many: { file: "many", says: "one primitive of 400,000 vertices" },
};
const MOST_TEXT = 2_000_000; // bytes of a text that is shown
const PATIENCE = 250; // milliseconds before the bar is shown
const AROUND = 8; // lines before and behind the one in view

const $ = (id) => document.getElementById(id);
const utf8 = (bytes) => new TextDecoder().decode(bytes);
const element = (name, text, attributes = {}) => Object.assign(document.createElement(name), { textContent: text, ...attributes });

// The commands, in a worker.

let worker;
let calls = 0;
const waiting = new Map();

function started() {
  const packed = globalThis.packed;
  worker = packed
    ? new Worker(URL.createObjectURL(new Blob([packed["worker.mjs"]], { type: "text/javascript" })))
    : new Worker("worker.mjs", { type: "module" });
  worker.postMessage({ packed });
  worker.onmessage = ({ data: { id, answer, ms, error } }) => {
    const call = waiting.get(id);
    waiting.delete(id);
    if (error) call.reject(new Error(error));
    else call.resolve({ ...answer, ms });
  };
}

/** What the program answers to these words and bytes. */
function run(words, input = new Uint8Array(0)) {
  return new Promise((resolve, reject) => {
    waiting.set(++calls, { resolve, reject, words, since: performance.now() });
    worker.postMessage({ id: calls, words, input });
  });
}

function stop() {
  worker.terminate();
  for (const { reject } of waiting.values()) reject(new Error("Stopped: the views may be of what was there before."));
  waiting.clear();
  started();
}

/** Shows the bar while a call takes long. */
function tick() {
  const [first] = waiting.values();
  const spent = first ? performance.now() - first.since : 0;
  $("busy").hidden = spent < PATIENCE;
  if (first) $("doing").textContent = `vc4check ${first.words.join(" ")}: ${(spent / 1000).toFixed(0)} s`;
}

/** Does some work, says where it fails, and whether it was done. */
async function guarded(work) {
  $("notice").textContent = "";
  try {
    await work();
    return true;
  } catch (error) {
    $("notice").textContent = error.message;
    return false;
  }
}

// What is in view.

let item = null; // name, kind ("job", "shader", or "text" for one with a mistake), bytes, accepted, example
let tab = "text";
let trace = null; // of a replay: its lines, and by step what it accesses
const filled = new Set();

/** Whether the bytes are a text: UTF-8 without control characters. */
function isText(bytes) {
  if (bytes.length === 0) return false;
  try {
    return !/[\0-\x08\x0e-\x1f]/.test(new TextDecoder("utf-8", { fatal: true }).decode(bytes));
  } catch {
    return false;
  }
}

const isAssembler = (text) => /^\s*(alu|li|br|nop)\b/.test(text.replace(/^\s*(#.*)?\n/gm, ""));

/** Takes in bytes: a job file, a shader's words, or the text of either. */
async function take(name, bytes, example) {
  if (!isText(bytes)) {
    const starts = utf8(bytes.subarray(0, 4)) === "VC4J";
    return check({ name, bytes, example, kind: starts || /\.vc4j$/.test(name) || bytes.length % 8 ? "job" : "shader" });
  }
  const command = isAssembler(utf8(bytes)) ? "asm" : "make";
  const made = await run([command], bytes);
  if (made.status === 0) return check({ name, bytes: made.text, example, kind: utf8(made.text.subarray(0, 4)) === "VC4J" ? "job" : "shader" });
  item = { name, bytes, kind: "text", accepted: false };
  const line = Number(/line (\d+)/.exec(made.line)?.[1] ?? 1) - 1;
  await refused(made, utf8(bytes).split("\n"), line, "The text has a mistake");
  await opened();
}

async function check(next) {
  item = next;
  const { bytes, kind } = item;
  const answer = await run([kind === "job" ? "check" : "shader"], bytes);
  item.accepted = answer.status === 0;
  if (answer.status > 1) verdict({ className: "", answer: answer.status === 6 ? "The input is longer than the checker takes." : "Memory ran out." });
  else if (!item.accepted) {
    const shown = utf8((await run([kind === "job" ? "show" : "disasm"], bytes)).text).trimEnd().split("\n");
    const lines = shown.filter((it) => !it.startsWith("# vc4check: "));
    const at = kind === "job" ? lines.findIndex((it) => it.endsWith("<== refused here")) : Number(/instruction (\d+)/.exec(answer.line)?.[1] ?? -1);
    await refused(answer, lines, at, refusalOf(utf8(answer.text)));
  } else {
    const head = utf8(answer.text.subarray(0, 200));
    verdict({
      className: "accepted",
      answer: "Accepted",
      why: kind === "job"
        ? `It may run in the ${Number(/^memory (\d+)/m.exec(head)?.[1]).toLocaleString("en")} bytes of memory that the checker makes of it: in every run of the model each access stays in the job's own buffers, lists and tile memory.`
        : "No rule of shaders refuses it. Whether its textures lie in their buffers is asked of a job.",
    });
  }
  $("name").textContent += `, checked in ${answer.ms.toFixed(1)} ms`;
  await opened();
}

/** The refusal as a heading: "Refused by rule U7, at byte 848". */
function refusalOf(text) {
  const [, rule, at] = /^refused (\w+) at (?:instruction )?(\d+)/.exec(text) ?? [];
  return rule ? `Refused by rule ${rule}, at ${item.kind === "job" ? "byte" : "instruction"} ${at}` : "Refused";
}

/** Shows a refusal, with the lines about the one where it is. */
async function refused({ line }, lines, at, answer) {
  const [, sentence, place, facts, topic] = /^vc4check: (?:\w+: )?(.*?)(?: \(([^()]*)\))?(?: \[(.*)\])?(?:; see vc4check explain ([\w ]+).*)?$/.exec(line) ?? [null, line];
  const about = topic ? utf8((await run(["explain", ...topic.split(" ")])).text).replace(/(?<!\n)\n(?=[^\s-])/g, " ") : "";
  const where = place && !place.startsWith("instruction") ? `In the ${place}${facts ? `: ${facts}` : ""}.` : "";
  verdict({ className: "refused", answer, why: sentence && `${sentence[0].toUpperCase()}${sentence.slice(1)}.`, place: where, about });
  if (at >= 0) mark($("marked"), lines, at, 3);
}

function verdict({ className, answer, why = "", place = "", about = "" }) {
  $("verdict").hidden = false;
  $("verdict").className = className;
  $("name").textContent = `${item.name}, ${item.bytes.length.toLocaleString("en")} bytes`;
  $("example").value = item.example ?? "";
  for (const [id, text] of Object.entries({ answer, why, place, rule: about, marked: "" })) $(id).textContent = text;
  $("about").hidden = !about;
  performance.mark("verdict");
}

/** Shows lines about one, which is marked. */
function mark(place, lines, at, around) {
  const from = Math.max(0, at - around);
  const parts = lines.slice(from, at + around + 1).map((line, i) => (from + i === at ? element("mark", `${line}\n`) : `${line}\n`));
  place.replaceChildren(...parts);
}

// The views.

const TABS = ["text", "picture", "shaders", "replay", "bound"];

/** Draws an SVG in a tree of its own, so that its style is not the page's. */
function draw(place, svg, style) {
  const root = place.shadowRoot ?? place.attachShadow({ mode: "open" });
  const sheet = new CSSStyleSheet();
  sheet.replaceSync(`${style}\n:host{display:block} svg{display:block} table{font-variant-numeric:tabular-nums}
    @media (prefers-color-scheme: dark){svg{filter:invert(.88) hue-rotate(180deg)}}`);
  root.adoptedStyleSheets = [sheet];
  root.replaceChildren(svg);
}

/** Draws what `picture` answered; of a run's the accesses alone where that is asked. */
function drawText(place, text, accesses = false) {
  const [before, style, behind] = text.split(/<\/?style>/); // the page's policy lets no style stand in a tree
  const svg = new DOMParser().parseFromString(before + behind, "image/svg+xml").documentElement;
  const top = accesses ? 490 + Number(svg.querySelector("[transform]").getAttribute("transform").match(/\d+(?=\))/)[0]) : 0;
  const height = svg.getAttribute("height") - top;
  svg.setAttribute("viewBox", `0 ${top} 960 ${height}`);
  svg.setAttribute("height", height);
  draw(place, document.importNode(svg, true), style);
}

/** A table of a file's parts, with the page's own remarks. */
function partsOf(table) {
  const rows = table.parts.slice(0, 200).map((it) => [nameOf(it), it.client ?? "", it.number === undefined ? "" : it.kind, `0x${it.at.toString(16)}`, it.size, remark(it, table)]);
  const body = element("table", "");
  for (const cells of [["", "client", "", "place", "bytes", ""], ...rows]) {
    const row = body.insertRow();
    for (const it of cells) row.append(element(cells[3] === "place" ? "th" : "td", it));
  }
  return body;
}

const fill = {
  async text() {
    if (item.kind === "text") $("source").value = utf8(item.bytes);
    else {
      const { text } = await run([item.kind === "job" ? "show" : "disasm"], item.bytes);
      const end = text.length > MOST_TEXT ? text.lastIndexOf(10, MOST_TEXT) + 1 : text.length;
      $("source").value = utf8(text.subarray(0, end)) + (end < text.length ? `.. and ${text.length - end} bytes more\n` : "");
      $("source").readOnly = $("again").disabled = end < text.length;
    }
    $("hint").textContent = item.kind === "job"
      ? "What each byte is. What stands before a # counts: change it, and check what comes of it."
      : "Change the text, and check what comes of it.";
  },
  async picture() {
    $("withrun").parentElement.hidden = !item.accepted;
    if (!item.accepted) {
      const table = tableOf(item.bytes);
      if (!table) return $("drawn").replaceChildren(), draw($("drawn"), element("p", "The file ends within its header: there is nothing to draw."), "");
      const both = element("div", "");
      both.append(element("p", "The file is refused. This is where its table says that its parts lie, as far as the table goes; the page draws it, not the checker."), drawTable(table), partsOf(table));
      return draw($("drawn"), both, `${STYLE} td,th{padding:.1rem .8rem .1rem 0;text-align:right}`);
    }
    const words = $("withrun").checked ? ["picture", "--run", $("steps").value, $("seed").value] : ["picture"];
    const { status, text, line } = await run(words, item.bytes);
    if (status === 0) drawText($("drawn"), utf8(text));
    else draw($("drawn"), element("p", line), "");
  },
  async shaders() {
    const found = tableOf(item.bytes)?.shaders ?? [];
    const parts = found.length ? [] : [element("p", "The file has no shader, as far as its table goes.")];
    for (const { number, code } of found) {
      const [text, report] = [await run(["disasm"], code), await run(["shader"], code)];
      const says = report.status === 0 ? takenBy(utf8(report.text)) : report.line.replace(/^vc4check: /, "");
      parts.push(element("h3", `Buffer ${number}: ${code.length / 8} instructions`), element("p", says), element("pre", utf8(text.text), { tabIndex: 0 }));
    }
    $("shaders").replaceChildren(...parts);
  },
  async replay() {
    $("ran").hidden = true;
    $("refusal").textContent = item.accepted ? "" : "The file is refused, so there is no run of it.";
    if (!item.accepted) return;
    const [steps, seed] = [$("steps").value, $("seed").value];
    const [report, accesses] = [await run(["replay", steps, seed], item.bytes), await run(["replay", "--accesses", steps, seed], item.bytes)];
    if (report.status) return ($("refusal").textContent = report.line.replace(/^vc4check: /, ""));
    const lines = utf8(report.text).trimEnd().split("\n");
    trace = { end: lines.pop(), lines, accesses: new Map() };
    for (const line of utf8(accesses.text).trimEnd().split("\n").slice(0, -1)) {
      const step = Number(line.slice(0, line.indexOf(" ")));
      trace.accesses.set(step, [...(trace.accesses.get(step) ?? []), line.slice(line.indexOf(" ") + 1)]);
    }
    $("at").max = lines.length;
    $("at").value = wanted.at ?? lines.length;
    delete wanted.at;
    $("ran").hidden = false;
    await seek();
  },
  async bound() {
    const { status, text } = await run(["bound"], item.bytes);
    const report = utf8(text);
    const [, steps, more] = /^steps (\d+) and (\d+) a stay/m.exec(report) ?? [];
    const parts = [];
    const count = (it) => Number(it).toLocaleString("en");
    if (status) parts.push(element("p", "The file is refused, so there is no bound."));
    else if (steps) {
      parts.push(element("p", `Every run of the model has at most ${count(steps)} steps, and ${count(more)} more for each time that the renderer stays at an item.`));
      parts.push(element("p", /^ends$/m.test(report) ? "A run that can't go on has finished, or waits for tile memory." : "A run may also wait for a texture request that isn't there: the place in the file stands below."));
    } else parts.push(element("p", "A shader branches back, so no number of steps is known: the place in the file stands below."));
    $("bound").replaceChildren(...parts, element("pre", report));
  },
};

/** How a run ended, in words. */
const endOf = (line) => (line.startsWith("finished") ? ": finished" : line.startsWith("waiting") ? ": it waits, and no unit can step" : ", which is as far as was asked: not finished");

const WIDTHS = [10, 7, 7, 10, 10, 0];

/** A step's line in columns, whose heads are these. */
const columns = (line) => line.replace(/ job /, " ").split(" ").map((it, i) => it.padEnd(WIDTHS[i])).join("");
const HEADS = columns("unit reads writes from to job");

/** What an accepted shader takes, in words. */
function takenBy(text) {
  const words = {
    uniforms: (count) => `it takes ${count} uniforms`,
    threads: (count) => `has ${count === "1" ? "one thread" : "two threads"}`,
    texture: (...at) => `reads a texture by the uniforms ${at.join(", ")}`,
    direct: (...at) => `reads a buffer directly by the uniforms ${at.join(", ")}`,
    address: (at) => `and takes further ones from the address that uniform ${at} is`,
  };
  const lines = text.trim().split("\n").slice(1).map((line) => line.split(" "));
  return `Accepted: ${lines.map(([key, ...rest]) => words[key](...rest)).join(", ")}.`;
}

let seeking = false;
let latest = false;

/** Shows the run up to the slider's step; while one is drawn, only the last that is asked for comes next. */
async function seek() {
  const [at, count] = [Number($("at").value), trace.lines.length];
  $("of").textContent = at === 0 ? `before the first of ${count}` : `${at} of ${count}${at === count ? endOf(trace.end) : ""}`;
  mark($("trace"), ["(the start)", ...trace.lines.map(columns)], at, AROUND);
  $("trace").prepend(`${HEADS}\n`);
  $("accesses").textContent = (trace.accesses.get(at - 1) ?? ["no access"]).join("\n");
  remember();
  latest = true;
  if (seeking) return;
  seeking = true;
  try {
    while (latest) {
      latest = false;
      const { status, text } = await run(["picture", "--run", $("at").value, $("seed").value], item.bytes);
      if (status === 0) drawText($("run"), utf8(text), true);
    }
  } finally {
    seeking = false;
  }
}

/** Shows the views of a new item. */
async function opened() {
  filled.clear();
  $("tabs").hidden = false;
  for (const it of TABS) $(`tab-${it}`).hidden = it !== "text" && item.kind !== "job";
  await view(item.kind === "job" ? tab : "text");
}

async function view(name, focus = false) {
  tab = item.kind === "job" ? name : tab;
  for (const it of TABS) {
    $(it).hidden = it !== name;
    $(`tab-${it}`).setAttribute("aria-selected", it === name);
    $(`tab-${it}`).tabIndex = it === name ? 0 : -1;
  }
  if (focus) $(`tab-${name}`).focus();
  remember();
  if (filled.has(name)) return;
  filled.add(name);
  if (await guarded(fill[name])) document.body.dataset.filled = name;
  else filled.delete(name);
}

// Links: #example=two&tab=replay&seed=7&steps=300&at=12

let wanted = {};

function remember() {
  const words = item?.example ? { example: item.example, tab } : {};
  if (item?.example && tab === "replay") Object.assign(words, { seed: $("seed").value, steps: $("steps").value, at: $("at").value });
  const hash = new URLSearchParams(words).toString();
  if (hash !== location.hash.slice(1)) history.replaceState(null, "", hash ? `#${hash}` : location.pathname);
}

async function follow() {
  wanted = Object.fromEntries(new URLSearchParams(location.hash.slice(1)));
  if (TABS.includes(wanted.tab)) tab = wanted.tab;
  for (const it of ["seed", "steps"]) if (/^\d+$/.test(wanted[it] ?? "")) $(it).value = wanted[it];
  const example = wanted.example ?? (item ? "" : "textured");
  if (Object.hasOwn(EXAMPLES, example)) await choose(example);
}

/** The bytes of a file beside the page, or of one that is packed in it. */
async function bytesOf(name) {
  if (globalThis.packed) return Uint8Array.from(atob(globalThis.packed[name]), (it) => it.charCodeAt(0));
  const answer = await fetch(name);
  if (!answer.ok) throw new Error(`${name}: ${answer.status}`);
  return new Uint8Array(await answer.arrayBuffer());
}

async function choose(name) {
  const { file, at = 0, bytes = [] } = EXAMPLES[name];
  const content = await bytesOf(`examples/${file}.vc4j`);
  content.set(bytes, at);
  await take(`${file}.vc4j${bytes.length ? ` with ${bytes.length} bytes changed` : ""}`, content, name);
}

const takeFile = (file) => file && guarded(async () => take(file.name, new Uint8Array(await file.arrayBuffer())));
const takeText = (name, text) => guarded(() => take(name, new TextEncoder().encode(text)));

started();
setInterval(tick, 100);
for (const [name, { says }] of Object.entries(EXAMPLES)) $("example").append(element("option", `${name}: ${says}`, { value: name }));
$("example").onchange = ({ target }) => target.value && guarded(() => choose(target.value));
$("file").onchange = ({ target }) => takeFile(target.files[0]);
$("stop").onclick = stop;
$("paste").onclick = ({ target }) => {
  target.ariaExpanded = $("pasted").hidden;
  if (!($("pasted").hidden = !$("pasted").hidden)) $("paper").focus();
};
$("take").onclick = () => takeText("the pasted text", $("paper").value);
$("again").onclick = () => takeText("the changed text", $("source").value);
$("save").onclick = () => {
  const link = element("a", "", { href: URL.createObjectURL(new Blob([item.bytes])), download: item.kind === "job" ? "job.vc4j" : "shader" });
  link.click();
  setTimeout(() => URL.revokeObjectURL(link.href), 1000);
};
$("rerun").onclick = () => guarded(fill.replay);
$("at").oninput = () => guarded(seek);
$("withrun").onchange = () => guarded(fill.picture);
for (const it of TABS) $(`tab-${it}`).onclick = () => view(it);
$("tabs").onkeydown = ({ key }) => {
  const shown = TABS.filter((it) => !$(`tab-${it}`).hidden);
  const at = shown.findIndex((it) => $(`tab-${it}`).tabIndex === 0);
  const next = { ArrowRight: at + 1, ArrowLeft: at - 1, Home: 0, End: -1 }[key];
  if (next !== undefined) view(shown.at(next % shown.length), true);
};
addEventListener("dragover", (event) => (event.preventDefault(), document.body.classList.add("over")));
addEventListener("dragleave", () => document.body.classList.remove("over"));
addEventListener("drop", (event) => {
  event.preventDefault();
  document.body.classList.remove("over");
  takeFile(event.dataTransfer.files[0]);
});
addEventListener("hashchange", () => guarded(follow));
guarded(follow);
