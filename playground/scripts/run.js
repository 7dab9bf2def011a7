// A trace, run on a machine: what each line prints, and the memory map after each.
import { Fault, readMachine } from "./machine.js";

const MAX_LINES = 1_000_000;
const LINE_FEED = 10;
const CERTIFICATE = "certificate\n";
// How often the clock is looked at, and how often a whole map is kept beside the changes between two.
const LINES_A_LOOK = 32;
const CHANGES_A_MAP = 64;
// Of a map that is longer the changes are kept once in a number of calls: four, if it is twice as long.
const LONG_MAP = 1000;
const CHANGES_NO_MAP = /^\d+ (?:map|read|write|install|install-many|uninstall|reinstall|open|close|handle-protocol|notify|locate|locate-protocol|protocols|connect|disconnect|path|list) /;
// Calls that change the map at one address, of the reply or of the line, or not at all: what a pool takes and gives back has
// the buffer in it. Of them the entry there is looked at, and now and then the whole map all the same.
const POOL = /^\d+ pool SUCCESS address=(0x[0-9a-f]+)/;
const FREE_POOL = /^\d+ free-pool /;
const FREED = /^free-pool (0x[0-9a-fA-F]{1,16}|[0-9]{1,19})$/;
const MAX_FREE_LENGTH = 40;
const REPLIES_A_MAP = 1024;
const EXITED = /^\d+ exit SUCCESS/;

/** The lines of bytes, without their line feeds. The end of the bytes ends a line that has a byte. */
export function* linesOf(bytes) {
  let start = 0;
  while (start < bytes.length) {
    const feed = bytes.indexOf(LINE_FEED, start);
    const end = feed < 0 ? bytes.length : feed;
    yield bytes.subarray(start, end);
    start = end + 1;
  }
}

const same = (one, other) => one.first === other.first && one.pages === other.pages && one.type === other.type
  && one.attributes === other.attributes;

const count = (text, character) => {
  let found = 0;
  for (let at = text.indexOf(character); at >= 0; at = text.indexOf(character, at + 1)) found += 1;
  return found;
};

/** The memory maps of a run, kept as the changes from each to the next. */
export class History {
  constructor(entries) {
    this.last = entries;
    this.changes = [{ reply: 0, whole: entries }];
    this.counts = [entries.length];
    this.most = entries.length;
  }

  /** Keeps the map after a number of replies. */
  keep(reply, entries) {
    const { last } = this;
    let front = 0;
    const shorter = Math.min(last.length, entries.length);
    while (front < shorter && same(last[front], entries[front])) front += 1;
    if (front === last.length && front === entries.length) return;
    let back = 0;
    while (back < shorter - front && same(last[last.length - 1 - back], entries[entries.length - 1 - back])) back += 1;
    const change = { reply, at: front, gone: last.length - front - back, come: entries.slice(front, entries.length - back) };
    if (this.changes.length % CHANGES_A_MAP === 0) change.whole = entries;
    this.changes.push(change);
    this.last = entries;
  }

  /** Keeps how many entries the map has after the next reply. */
  counted(number) {
    this.counts.push(number);
    this.most = Math.max(this.most, number);
  }

  // The place of the last change up to a number of replies.
  place(reply) {
    let low = 0;
    let high = this.changes.length;
    while (high - low > 1) {
      const middle = (low + high) >> 1;
      if (this.changes[middle].reply <= reply) low = middle; else high = middle;
    }
    return low;
  }

  /** The map after a number of replies. */
  after(reply) {
    const end = this.place(reply);
    let from = end;
    while (!this.changes[from].whole) from -= 1;
    let entries = this.changes[from].whole;
    for (let index = from + 1; index <= end; index += 1) {
      const { at, gone, come } = this.changes[index];
      entries = [...entries.slice(0, at), ...come, ...entries.slice(at + gone)];
    }
    return entries;
  }
}

/** The address that is the only one at which a call may have changed the map, where there is such a one. */
function placeOf(head, line) {
  const taken = POOL.exec(head);
  if (taken) return BigInt(taken[1]);
  if (line.length > MAX_FREE_LENGTH || !FREE_POOL.test(head)) return null;
  const freed = FREED.exec(String.fromCharCode.apply(null, line));
  return freed ? BigInt(freed[1]) : null;
}

/** What a line prints, cut into its first line, the lines below, and the certificate block. */
function replyOf(number, text) {
  const block = text.startsWith(CERTIFICATE) ? 0 : text.indexOf(`\n${CERTIFICATE}`) + 1;
  const said = block > 0 ? text.slice(0, block) : text;
  const feed = said.indexOf("\n");
  const below = said.slice(feed + 1);
  return {
    number,
    text,
    head: said.slice(0, feed),
    below,
    belowCount: count(below, "\n"),
    block: block > 0 ? text.slice(block) : "",
    blockCount: block > 0 ? count(text, "\n") - count(said, "\n") : 0,
  };
}

/** A run on a machine, as far as it has come. */
export class Run {
  constructor(room, machine, bytes, certify) {
    this.core = room.make(machine, certify);
    this.machine = machine;
    this.lines = linesOf(bytes);
    this.replies = [];
    this.core.readMap();
    this.history = new History(this.core.entries());
    this.number = 0;
    this.exitedAt = Infinity;
    this.fault = null;
    this.isDone = false;
  }

  /** Makes the calls of the next lines, up to a time. */
  go(until = Infinity) {
    try {
      while (!this.isDone && (this.number % LINES_A_LOOK !== 0 || performance.now() < until || this.number === 0)) this.step();
    } catch (error) {
      if (!(error instanceof Fault)) throw error;
      this.fault = { number: this.number, text: error.message };
      this.isDone = true;
    }
    if (this.isDone) this.keepMap();
  }

  step() {
    const { value, done } = this.lines.next();
    this.isDone = done;
    if (done) return;
    this.number += 1;
    if (this.number > MAX_LINES) throw new Fault("trace: too many lines");
    const text = this.core.run(this.number, value);
    if (text === "") return;
    const reply = replyOf(this.number, text);
    this.replies.push(reply);
    if (EXITED.test(reply.head)) this.exitedAt = Math.min(this.exitedAt, this.replies.length);
    this.look(reply, value);
  }

  // Keeps the memory map after a reply.
  look(reply, line) {
    const { history, replies } = this;
    if (CHANGES_NO_MAP.test(reply.head)) {
      history.counted(history.counts[replies.length - 1]);
      return;
    }
    const place = placeOf(reply.head, line);
    if (place !== null && replies.length % REPLIES_A_MAP !== 0 && this.core.isAsRead(place)) {
      history.counted(history.counts[replies.length - 1]);
      return;
    }
    const number = this.core.descriptors();
    history.counted(number);
    const seldom = Math.max(1, Math.ceil((number / LONG_MAP) ** 2));
    if (replies.length % seldom === 0) this.keepMap();
  }

  keepMap() {
    if (this.core.readMap()) this.history.keep(this.replies.length, this.core.entries());
  }
}

/** All that `bootcore run` writes, and its exit status; and the run, as far as it came. */
export function wholeRun(room, machine, trace, certify) {
  let run = null;
  const printed = () => (run ? run.replies.map((it) => it.text).join("") : "");
  try {
    run = new Run(room, readMachine(machine), trace, certify);
    run.go();
    if (run.fault) throw new Fault(run.fault.text);
    return { out: printed(), err: "", status: 0, run };
  } catch (error) {
    if (!(error instanceof Fault)) throw error;
    return { out: printed(), err: `bootcore: ${error.message}\n`, status: 1, run };
  }
}

/** All that `bootcore check` writes of a block, and its exit status. */
export function wholeCheck(module, block) {
  try {
    const verdict = module.check(block);
    return { out: `${verdict}\n`, err: "", status: verdict === "accepted" ? 0 : 3 };
  } catch (error) {
    if (!(error instanceof Fault)) throw error;
    return { out: "", err: `bootcore: ${error.message}\n`, status: 1 };
  }
}
