// The page: what its parts show of one machine, one trace and the run of both.
import { Room, Module, runsHere } from "./core.js";
import { Editor } from "./editor.js";
import { MACHINES, TRACES } from "./examples.js";
import { fragmentOf, isLink, valueOf } from "./link.js";
import { Fault, readMachine } from "./machine.js";
import { Replies } from "./replies.js";
import { Run, wholeCheck, wholeRun } from "./run.js";
import { plural, sizeOf } from "./types.js";
import { MapView } from "./map_view.js";
import { WhereView } from "./where_view.js";

const SLICE = 40;
const PAUSE = 300;
const OWN = "own";
const NEEDED_BROWSERS = "This page needs WebAssembly with a memory of 64 bits (memory64): Chromium and the browsers built on it have it from version 133 on, Firefox from 134 on.";
const $ = (id) => document.getElementById(id);
const encoder = new TextEncoder();

// Lets the page be drawn and used. A timer would come back later: browsers hold them up.
const breath = () => new Promise((done) => {
  const { port1, port2 } = new MessageChannel();
  port1.onmessage = () => {
    port1.close();
    done();
  };
  port2.postMessage(null);
});

const files = new Map();

async function fileOf(path) {
  if (!files.has(path)) {
    const answer = await fetch(path);
    if (!answer.ok) throw new Error(`${path}: ${answer.status}`);
    files.set(path, await answer.text());
  }
  return files.get(path);
}

const machinePath = (name) => MACHINES.flatMap(([, list]) => list).find((it) => it[0] === name)?.[2];
const traceOf = (name) => TRACES.find((it) => it[0] === name);

// What is wrong with a line, by the last word of its fault.
const WRONG = {
  long: "the line has over 65,536 bytes",
  verb: "the first word is no verb",
  words: "too few or too many words for the verb",
  number: "a word is no number, or out of range",
  guid: "a word is no GUID",
  hex: "a word is no bytes in hexadecimal digits",
};

function meaningOf(fault) {
  const words = fault.text.startsWith("trace line ") ? WRONG[fault.text.split(" ").pop()] : null;
  return words ? ` (${words})` : "";
}

class Page {
  constructor(module) {
    this.module = module;
    this.room = new Room(module);
    this.run = null;
    this.turn = 0;
    this.editor = new Editor($("trace-text"), $("gutter"), $("bands"), () => this.changed("trace"));
    this.replies = new Replies($("replies"), {
      chosen: (count) => this.go(count, true),
      verdict: (block) => this.verdictOf(block),
      edited: (block) => this.edit(block),
    });
    this.maps = new MapView($, (count) => this.go(count, true));
    this.where = new WhereView($, new Room(module, 1 << 26, 1 << 24));
    this.fill();
    this.listen();
  }

  fill() {
    for (const [label, list] of MACHINES) {
      const group = Object.assign(document.createElement("optgroup"), { label });
      group.append(...list.map(([name, words]) => new Option(words, name)));
      $("machine").append(group);
    }
    $("machine").append(new Option("your own file", OWN));
    $("trace").append(...TRACES.map(([name, words]) => new Option(words, name)), new Option("your own trace", OWN));
  }

  listen() {
    $("machine").addEventListener("change", () => this.takeMachine($("machine").value));
    $("trace").addEventListener("change", () => this.takeTrace($("trace").value));
    $("granule").addEventListener("change", () => this.start());
    $("certify").addEventListener("change", () => this.start());
    $("machine-text").addEventListener("input", () => this.changed("machine"));
    $("run").addEventListener("click", () => this.start());
    $("link").addEventListener("click", () => this.copyLink());
    $("block").addEventListener("input", () => {
      this.isEdited = true;
      this.judge();
    });
    document.addEventListener("keydown", (event) => {
      if (event.key === "Enter" && (event.ctrlKey || event.metaKey)) this.start();
    });
    window.addEventListener("hashchange", () => {
      if (isLink(location.hash)) this.open();
    });
  }

  // ---- What is run

  /** Shows what the link says, or else the first example. */
  async open() {
    const value = await valueOf(location.hash);
    const trace = value?.trace ?? "drivers";
    await this.takeTrace(trace, value);
  }

  async takeMachine(name, isQuiet) {
    if (name === OWN) {
      $("machine-file").open = true;
      $("machine-text").focus();
      return;
    }
    $("machine").value = name;
    $("machine-text").value = await fileOf(`examples/${machinePath(name)}`);
    $("granule").value = "";
    if (!isQuiet) await this.start();
  }

  // Takes an example of a trace with its machine; or what a link says.
  async takeTrace(name, link) {
    if (name === OWN && !link) {
      $("trace-text").focus();
      return;
    }
    const example = traceOf(name);
    this.editor.text = example ? await fileOf(`examples/${example[2]}`) : String(link?.traceText ?? "");
    $("trace").value = example ? name : OWN;
    $("certify").checked = link ? link.certify === true : example[4];
    const machine = link?.machine ?? example?.[3] ?? "a";
    if (machinePath(machine)) {
      await this.takeMachine(machine, true);
    } else {
      $("machine").value = OWN;
      $("machine-text").value = String(link?.machineText ?? "");
    }
    if (link) $("granule").value = ["1", "16"].includes(link.granule) ? link.granule : "";
    await this.start();
    if (Number.isInteger(link?.at)) this.go(Math.min(link.at, this.run?.replies.length ?? 0), true);
  }

  // Runs once nothing more was typed for a while.
  changed(what) {
    $(what).value = OWN;
    clearTimeout(this.waiting);
    this.waiting = setTimeout(() => this.start(), PAUSE);
  }

  machine() {
    const machine = readMachine(encoder.encode($("machine-text").value));
    if ($("granule").value) machine.granule = BigInt($("granule").value);
    return machine;
  }

  /** Runs the trace on the machine, in slices between which the page is drawn. */
  async start() {
    clearTimeout(this.waiting);
    this.turn += 1;
    const turn = this.turn;
    this.run = null;
    this.replies.clear();
    this.editor.blame(null);
    try {
      const machine = this.machine();
      this.run = new Run(this.room, machine, encoder.encode(this.editor.text), $("certify").checked);
      this.tellMachine(machine);
    } catch (error) {
      if (!(error instanceof Fault)) throw error;
      this.tellRefusal(error);
      return;
    }
    const began = performance.now();
    const { run } = this;
    this.where.clear();
    while (!run.isDone) {
      run.go(performance.now() + SLICE);
      this.replies.take(run.replies, run.fault);
      if (!run.isDone) {
        this.tellRun(run, performance.now() - began);
        await breath();
        if (turn !== this.turn) return;
      }
    }
    this.seconds = (performance.now() - began) / 1000;
    this.tellRun(run, performance.now() - began);
    this.maps.show(run);
    // Up to the last call that boot services take, if they end.
    this.go(Math.min(run.replies.length, run.exitedAt - 1), false);
    if (run.fault) this.replies.toEnd();
    if (!this.isEdited) this.offer(run.replies.findLast((it) => it.block)?.block);
  }

  tellMachine({ memory, drivers, granule }) {
    const pages = memory.filter((it) => it.type === 7).reduce((sum, it) => sum + it.pages, 0n);
    const parts = [plural(memory.length, "descriptor"), `${sizeOf(pages)} conventional`];
    if (drivers.length) parts.push(plural(drivers.length, "driver"));
    if (granule !== 1n) parts.push(`granule ${granule}`);
    $("machine-said").textContent = parts.join(" · ");
    $("machine-said").classList.remove("fault");
  }

  // A machine file that is refused.
  tellRefusal(fault) {
    $("machine-said").textContent = `bootcore: ${fault.message}`;
    $("machine-said").classList.add("fault");
    $("machine-file").open = true;
    $("run-said").textContent = "the machine file is refused";
    $("trace-said").textContent = "";
    this.replies.take([], { text: fault.message });
    this.editor.mark(0, false);
    this.maps.clear();
    this.where.clear();
  }

  tellRun(run, milliseconds) {
    const { fault, number, replies } = run;
    const time = milliseconds < 1000 ? `${Math.max(1, Math.round(milliseconds))} ms` : `${(milliseconds / 1000).toFixed(2)} s`;
    const parts = [plural(replies.length, "reply", "replies"), time];
    if (!run.isDone) parts.unshift(`line ${number.toLocaleString("en")} ..`);
    $("run-said").textContent = parts.join(" · ");
    $("trace-said").textContent = fault ? `bootcore: ${fault.text}${meaningOf(fault)}` : "";
    $("trace-said").classList.toggle("fault", fault !== null);
    this.editor.blame(fault);
  }

  // ---- What is shown of it

  /** Shows the machine after a number of replies. */
  go(count, isShown) {
    if (!this.run) return;
    const reply = this.run.replies[count - 1];
    this.replies.mark(count, isShown);
    this.editor.mark(reply?.number ?? 0, isShown);
    const entries = this.maps.go(count);
    this.where.ask(entries, this.run.machine.granule, count >= this.run.exitedAt);
  }

  // Shows a block to be judged.
  offer(block) {
    if (block) $("block").value = block;
    this.judge();
  }

  edit(block) {
    this.isEdited = true;
    this.offer(block);
    $("check-panel").scrollIntoView({ block: "center" });
    $("block").focus();
  }

  // What `bootcore check` writes of a block.
  verdictOf(block) {
    const { out, err } = wholeCheck(this.module, encoder.encode(block));
    return (out || err).trim();
  }

  judge() {
    const text = $("block").value;
    const verdict = text ? this.verdictOf(text) : "";
    $("verdict").textContent = verdict;
    $("verdict").className = verdict === "accepted" ? "good" : "refused";
  }

  async copyLink() {
    const machine = $("machine").value;
    const trace = $("trace").value;
    const value = { machine, trace, granule: $("granule").value, certify: $("certify").checked, at: this.maps.count };
    if (machine === OWN) value.machineText = $("machine-text").value;
    if (trace === OWN) value.traceText = this.editor.text;
    const fragment = await fragmentOf(value);
    history.replaceState(null, "", fragment);
    try {
      await navigator.clipboard.writeText(location.href);
      $("link").textContent = "Copied";
    } catch {
      $("link").textContent = "In the address bar";
    }
    setTimeout(() => { $("link").textContent = "Copy link"; }, 2000);
  }
}

// ---- Light and dark

const THEMES = ["system", "light", "dark"];

function useTheme(name) {
  document.documentElement.dataset.theme = name;
  $("theme").textContent = `Theme: ${name}`;
  window.dispatchEvent(new Event("theme"));
}

$("theme").addEventListener("click", () => {
  const now = document.documentElement.dataset.theme ?? "system";
  useTheme(THEMES[(THEMES.indexOf(now) + 1) % THEMES.length]);
});
matchMedia("(prefers-color-scheme: dark)").addEventListener("change", () => window.dispatchEvent(new Event("theme")));

// ---- Start

function announce(words) {
  $("notice").textContent = words;
  $("notice").hidden = false;
}

async function tellWhatRuns(module) {
  const made = await fetch("made.json").then((it) => (it.ok ? it.json() : {})).catch(() => ({}));
  const parts = [`Rafkudin ${module.version()}`];
  if (made.commit) parts.push(`commit ${made.commit}`);
  $("runs").textContent = `${parts.join(", ")}, compiled to WebAssembly from source that is proved with ${made.kit ?? "Rattle"}.`;
}

async function begin() {
  if (!runsHere()) {
    announce(NEEDED_BROWSERS);
    return;
  }
  const module = await Module.load("rafkudin.wasm");
  await tellWhatRuns(module);
  const page = new Page(module);
  // For the console, and for tools/try-playground.
  globalThis.playground = { page, module, wholeRun, wholeCheck };
  await page.open();
}

begin().catch((error) => {
  announce(`The page cannot start: ${error.message}`);
  throw error;
});
