// The WebAssembly module: cores in regions of its memory, which run lines of traces, and the check of certificate blocks.
import { Fault, PAGE, RECORD, recordsOf, tablesOf } from "./machine.js";

const SUCCESS = 0n;
const INVALID_PARAMETER = 0x8000000000000002n;
const BUFFER_TOO_SMALL = 0x8000000000000005n;
const ACCESS_DENIED = 0x800000000000000fn;
const ABORTED = 0x8000000000000015n;
const WASM_PAGE = 65_536;
const UNIT = 16;
// An entry of a memory map: its type, four bytes that say nothing, its start, its pages and its attributes.
const ENTRY = 32;
const ENTRY_WORDS = 8;
const ENTRY_NUMBERS = 4;
// A line that is longer is at fault, whatever is behind that.
const MAX_LINE_LENGTH = 65_537;
// A text that is longer is left to the decoder, which takes a while to begin.
const SHORT = 200;
// The header of a module with a memory of 64 bits.
const MEMORY64 = Uint8Array.of(0, 0x61, 0x73, 0x6d, 1, 0, 0, 0, 5, 3, 1, 4, 1);

const MIB = 1 << 20;
const CORE_BYTES = 256 * MIB;
const LINE_BYTES = 64 * MIB;

export const runsHere = () => typeof WebAssembly === "object" && WebAssembly.validate(MEMORY64);

function isAscii(bytes) {
  for (let index = 0; index < bytes.length; index += 1) if (bytes[index] > 127) return false;
  return true;
}

// Whether words of entries are the same, but for those that say nothing.
function areSame(words, others) {
  for (let index = 0; index < words.length; index += 1) {
    if (words[index] !== others[index] && index % ENTRY_WORDS !== 1) return false;
  }
  return true;
}

/** Memory that one thing has for itself, and that goes to the next once that is at its end. */
class Region {
  constructor(module, bytes) {
    this.handed = module.take(16);
    this.bytes = bytes;
    module.write(this.handed, BigInt(module.take(bytes)), BigInt(bytes / UNIT));
  }
}

/** An instance of the module, with the memory that the page lays out behind the module's own data. */
export class Module {
  static async load(url) {
    const answer = await fetch(url);
    if (!answer.ok) throw new Error(`${url}: ${answer.status}`);
    const { instance } = await WebAssembly.instantiate(await answer.arrayBuffer(), {});
    return new Module(instance);
  }

  constructor(instance) {
    this.calls = instance.exports;
    this.memory = instance.exports.memory;
    this.room = this.memory.buffer.byteLength;
    this.end = this.room;
    this.number = this.take(8);
    this.checks = new Region(this, MIB);
    this.text = { at: this.take(WASM_PAGE), room: WASM_PAGE };
  }

  version() {
    const number = this.calls.PlaygroundVersion();
    return `${number >> 16}.${(number >> 8) & 255}.${number & 255}`;
  }

  view() {
    return new DataView(this.memory.buffer);
  }

  bytes(at, length) {
    return new Uint8Array(this.memory.buffer, at, length);
  }

  write(at, ...numbers) {
    const view = this.view();
    numbers.forEach((it, index) => view.setBigUint64(at + 8 * index, it, true));
  }

  read(at) {
    return this.view().getBigUint64(at, true);
  }

  // Bytes that nothing else has.
  take(length) {
    const at = Math.ceil(this.end / UNIT) * UNIT;
    const wanted = Math.ceil((at + length - this.room) / WASM_PAGE);
    if (wanted > 0) this.grow(wanted);
    this.end = at + length;
    return at;
  }

  grow(pages) {
    try {
      this.memory.grow(BigInt(pages));
    } catch (error) {
      if (!(error instanceof TypeError)) throw new Fault("out of memory");
      this.memory.grow(pages);
    }
    this.room = this.memory.buffer.byteLength;
  }

  // Lays bytes into a place that the next call of this function uses again.
  lay(bytes) {
    if (bytes.length > this.text.room) this.text = { at: this.take(2 * bytes.length), room: 2 * bytes.length };
    this.bytes(this.text.at, bytes.length).set(bytes);
    return this.text.at;
  }

  status(name, ...words) {
    return BigInt.asUintN(64, this.calls[name](...words));
  }

  /** Judges a certificate block, as `bootcore check` does: "accepted", "refused", or a Fault. */
  check(bytes) {
    const wanted = 16 * bytes.length + WASM_PAGE;
    if (this.checks.bytes < wanted) this.checks = new Region(this, 2 * Math.ceil(wanted / UNIT) * UNIT);
    const text = this.lay(bytes);
    const status = this.status("PlaygroundCheck", BigInt(this.checks.handed), BigInt(text), BigInt(bytes.length),
      BigInt(this.number));
    if (status === SUCCESS) return "accepted";
    if (status === ACCESS_DENIED) return "refused";
    if (status === INVALID_PARAMETER) throw new Fault(`block: line ${this.read(this.number)}`);
    throw new Fault("out of memory");
  }
}

/** The room of a core. One core at a time is in it: a new one ends the one before. */
export class Room {
  constructor(module, coreBytes = CORE_BYTES, lineBytes = LINE_BYTES) {
    this.module = module;
    this.core = new Region(module, coreBytes);
    this.lines = new Region(module, lineBytes);
    this.line = module.take(MAX_LINE_LENGTH);
    this.text = { at: module.take(WASM_PAGE), room: WASM_PAGE };
    this.entries = module.take(0);
    this.entryRoom = 0;
  }

  // Where entries of a memory map are laid.
  entriesAt(count) {
    if (this.entryRoom < count) {
      this.entryRoom = 2 * count;
      this.entries = this.module.take(ENTRY * this.entryRoom);
    }
    return this.entries;
  }

  /** The core of a machine before any call. */
  make(machine, certify) {
    const { module } = this;
    const records = recordsOf(machine.memory);
    const tables = tablesOf(machine.drivers);
    const both = new Uint8Array(records.length + tables.length + RECORD);
    // The tables come first, at a multiple of 16.
    both.set(tables);
    both.set(records, tables.length);
    const at = module.lay(both);
    module.write(module.number, 0n);
    const made = module.status("PlaygroundMake", BigInt(this.core.handed), BigInt(at + tables.length), BigInt(records.length),
      BigInt(RECORD), machine.granule, BigInt(at), BigInt(machine.drivers.length), BigInt(module.number));
    if (made !== SUCCESS) throw new Fault("out of memory");
    const core = new Core(this, module.read(module.number));
    if (module.status("PlaygroundReadIn", core.pointer, BigInt(this.lines.handed)) !== SUCCESS) throw new Fault("out of memory");
    module.calls.PlaygroundCertify(core.pointer, certify ? 1 : 0);
    return core;
  }
}

/** A core, the boot services of one machine. */
export class Core {
  constructor(room, pointer) {
    this.room = room;
    this.pointer = pointer;
    this.decoder = new TextDecoder();
  }

  /** Makes the call of a line, given as bytes, and returns what `bootcore run` prints of it. */
  run(number, line) {
    const { room } = this;
    const { module } = room;
    const length = Math.min(line.length, MAX_LINE_LENGTH);
    module.bytes(room.line, length).set(line.subarray(0, length));
    const status = module.status("PlaygroundRunLine", this.pointer, BigInt(number), BigInt(room.line), BigInt(length));
    if (status === SUCCESS) return this.text();
    if (status === INVALID_PARAMETER) throw new Fault(this.text());
    throw new Fault(status === ABORTED ? "trace: no calls left" : "out of memory");
  }

  // What the last line printed.
  text() {
    const { room } = this;
    const { module } = room;
    const status = module.status("PlaygroundText", this.pointer, BigInt(room.text.at), BigInt(room.text.room), BigInt(module.number));
    const length = Number(module.read(module.number));
    if (status === BUFFER_TOO_SMALL) {
      room.text = { at: module.take(2 * length), room: 2 * length };
      return this.text();
    }
    if (status !== SUCCESS) throw new Fault("out of memory");
    const bytes = module.bytes(room.text.at, length);
    return length <= SHORT && isAscii(bytes) ? String.fromCharCode.apply(null, bytes) : this.decoder.decode(bytes);
  }

  /** How many entries the memory map has. */
  descriptors() {
    return Number(this.room.module.calls.PlaygroundMap(this.pointer, BigInt(UNIT), 0n));
  }

  /** Reads the memory map, and returns whether it is another one than when it was last read. */
  readMap() {
    const { room } = this;
    const { calls, memory } = room.module;
    const count = this.descriptors();
    const at = room.entriesAt(count);
    calls.PlaygroundMap(this.pointer, BigInt(at), BigInt(count));
    const words = new Uint32Array(memory.buffer, at, ENTRY_WORDS * count);
    if (this.words?.length === words.length && areSame(this.words, words)) return false;
    this.words = words.slice();
    return true;
  }

  /** Whether the memory map is as it was last read, after a call that changes it at this address or not at all. */
  isAsRead(address) {
    const { room } = this;
    const { calls, memory } = room.module;
    const index = this.indexOf(address);
    if (index < 0 || ENTRY_WORDS * this.descriptors() !== this.words.length) return false;
    calls.PlaygroundDescriptor(this.pointer, BigInt(index), BigInt(room.entries));
    const entry = new Uint32Array(memory.buffer, room.entries, ENTRY_WORDS);
    return areSame(this.words.subarray(ENTRY_WORDS * index, ENTRY_WORDS * (index + 1)), entry);
  }

  // The entry of the map, as it was last read, that an address is in.
  indexOf(address) {
    const numbers = new BigUint64Array(this.words.buffer);
    let low = 0;
    let high = numbers.length / ENTRY_NUMBERS;
    while (high - low > 1) {
      const middle = (low + high) >> 1;
      if (numbers[ENTRY_NUMBERS * middle + 1] <= address) low = middle; else high = middle;
    }
    const [start, pages] = [numbers[ENTRY_NUMBERS * low + 1], numbers[ENTRY_NUMBERS * low + 2]];
    return address >= start && (address - start) / PAGE < pages ? low : -1;
  }

  /** The entries of the memory map, as it was last read. */
  entries() {
    const view = new DataView(this.words.buffer);
    return Array.from({ length: this.words.length / ENTRY_WORDS }, (_, index) => ({
      type: view.getUint32(ENTRY * index, true),
      first: view.getBigUint64(ENTRY * index + 8, true) / PAGE,
      pages: view.getBigUint64(ENTRY * index + 16, true),
      attributes: view.getBigUint64(ENTRY * index + 24, true),
    }));
  }
}
