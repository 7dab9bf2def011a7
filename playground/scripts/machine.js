// Machine files: read as `bootcore` reads them, with its faults, and handed over as the records that the core is made of.
// docs/FORMATS.md has the form, and the order of the checks.

export const PAGE = 4096n;
const RUNTIME = 1n << 63n;
const MAX_BYTES = 67_108_864;
const MAX_DESCRIPTORS = 65_536;
const MAX_DRIVERS = 64;
const MAX_NESTING = 127;

/** What `bootcore` writes to standard error behind its name. */
export class Fault extends Error {}

// ---- JSON, by the rules of serde_json: whole numbers are BigInts, objects are Maps

const SPACE = /[ \t\n\r]*/y;
const NUMBER = /-?(?:0|[1-9][0-9]*)(\.[0-9]+)?([eE][+-]?[0-9]+)?/y;
const WORDS = [["true", true], ["false", false], ["null", null]];
const MAX_NUMBER_LENGTH = 20;

class Json {
  constructor(text) {
    this.text = text;
    this.at = 0;
  }

  static parse(text) {
    const json = new Json(text);
    const value = json.value(0);
    json.token(SPACE);
    if (json.at !== text.length) json.fail();
    return value;
  }

  fail() {
    throw new Fault("machine: not JSON");
  }

  token(pattern) {
    pattern.lastIndex = this.at;
    const found = pattern.exec(this.text);
    if (found) this.at = pattern.lastIndex;
    return found;
  }

  // Whether the next character is this one, which is taken then.
  takes(character) {
    this.token(SPACE);
    if (this.text[this.at] !== character) return false;
    this.at += 1;
    return true;
  }

  expect(character) {
    if (!this.takes(character)) this.fail();
  }

  string() {
    const { text } = this;
    this.token(SPACE);
    if (text[this.at] !== '"') this.fail();
    let end = this.at + 1;
    while (end < text.length && text[end] !== '"') end += text[end] === "\\" ? 2 : 1;
    if (end >= text.length) this.fail();
    const quoted = text.slice(this.at, end + 1);
    this.at = end + 1;
    let value = "";
    try {
      value = JSON.parse(quoted);
    } catch {
      this.fail();
    }
    return /\p{Surrogate}/u.test(value) ? this.fail() : value;
  }

  // A BigInt where it is a whole number of 64 bits, else a number that no key allows.
  number() {
    const found = this.token(NUMBER);
    if (!found || !Number.isFinite(Number(found[0]))) this.fail();
    const isWhole = !found[1] && !found[2] && !found[0].startsWith("-") && found[0].length <= MAX_NUMBER_LENGTH;
    const value = isWhole ? BigInt(found[0]) : -1n;
    return isWhole && value < 1n << 64n ? value : Number(found[0]);
  }

  list(depth) {
    const items = [];
    if (this.takes("]")) return items;
    do items.push(this.value(depth)); while (this.takes(","));
    this.expect("]");
    return items;
  }

  object(depth) {
    const members = new Map();
    if (this.takes("}")) return members;
    do {
      const key = this.string();
      this.expect(":");
      members.set(key, this.value(depth));
    } while (this.takes(","));
    this.expect("}");
    return members;
  }

  value(depth) {
    this.token(SPACE);
    const next = this.text[this.at];
    if (next === '"') return this.string();
    if (next === "{" || next === "[") {
      if (depth >= MAX_NESTING) this.fail();
      this.at += 1;
      return next === "{" ? this.object(depth + 1) : this.list(depth + 1);
    }
    for (const [word, value] of WORDS) {
      if (this.text.startsWith(word, this.at)) {
        this.at += word.length;
        return value;
      }
    }
    return this.number();
  }
}

// ---- The file

const HEXADECIMAL = /^0x[0-9a-fA-F]{1,16}$/;
const DIGITS = "[0-9a-fA-F]";
const GROUPS = `${DIGITS}{8}-${DIGITS}{4}-${DIGITS}{4}-${DIGITS}{4}-${DIGITS}{12}`;
const GUID = new RegExp(`^(?:${DIGITS}{32}|${GROUPS}|\\{${GROUPS}\\}|[uU][rR][nN]:[uU][uU][iI][dD]:${GROUPS})$`);

const isNumber = (value, most) => typeof value === "bigint" && value <= most;
const isHexadecimal = (value) => typeof value === "string" && HEXADECIMAL.test(value);
const isGuid = (value) => typeof value === "string" && GUID.test(value);
const isList = (value, most, holds) => Array.isArray(value) && value.length <= most && value.every(holds);
const isPair = (value) => isList(value, 2, () => true) && value.length === 2 && isGuid(value[0]) && isHexadecimal(value[1]);
const isType = (value) => isNumber(value, 15n) || (isNumber(value, 0xffffffffn) && value >= 0x70000000n);

function readDescriptor(member, index) {
  const wrong = (field) => { throw new Fault(`machine: descriptor ${index}: ${field}`); };
  const get = (key) => member.get(key);
  if (!(member instanceof Map) || !isType(get("type"))) wrong("type");
  if (!isHexadecimal(get("start")) || BigInt(get("start")) % PAGE !== 0n) wrong("start");
  const type = Number(get("type"));
  const first = BigInt(get("start")) / PAGE;
  const pages = get("pages");
  if (typeof pages !== "bigint" || pages < 1n || first + pages > 1n << 52n) wrong("pages");
  if (!isHexadecimal(get("attributes"))) wrong("attributes");
  const attributes = BigInt(get("attributes"));
  if (type === 7 && attributes & RUNTIME) wrong("attributes");
  return { type, first, pages, attributes };
}

function readDriver(member, index) {
  const wrong = (field) => { throw new Fault(`machine: driver ${index}: ${field}`); };
  const get = (key) => member.get(key);
  if (!(member instanceof Map) || !isNumber(get("version"), 0xffffffffn)) wrong("version");
  if (!isList(get("needs"), 8, isGuid)) wrong("needs");
  if (!isList(get("opens"), 8, isGuid)) wrong("opens");
  if (!isList(get("children"), 8, (child) => isList(child, 4, isPair))) wrong("children");
  if (typeof get("stops") !== "boolean") wrong("stops");
  return {
    version: Number(get("version")),
    stops: get("stops"),
    needs: get("needs"),
    opens: get("opens"),
    children: get("children"),
  };
}

function decoded(bytes) {
  if (bytes.length > MAX_BYTES) throw new Fault("machine: too long");
  try {
    return new TextDecoder("utf-8", { fatal: true, ignoreBOM: true }).decode(bytes);
  } catch {
    throw new Fault("machine: not JSON");
  }
}

// Whether two of the descriptors have a page in common.
function overlap(memory) {
  const sorted = [...memory].sort((one, other) => (one.first < other.first ? -1 : 1));
  return sorted.some((it, index) => index > 0 && sorted[index - 1].first + sorted[index - 1].pages > it.first);
}

/** The machine that a file's bytes say. A Fault, where `bootcore` refuses the file. */
export function readMachine(bytes) {
  const file = Json.parse(decoded(bytes));
  const list = file instanceof Map ? file.get("memory") : null;
  if (!Array.isArray(list)) throw new Fault("machine: no memory list");
  if (list.length > MAX_DESCRIPTORS) throw new Fault("machine: too many descriptors");
  const memory = list.map(readDescriptor);
  const members = file.has("drivers") ? file.get("drivers") : [];
  if (!Array.isArray(members)) throw new Fault("machine: no driver list");
  if (members.length > MAX_DRIVERS) throw new Fault("machine: too many drivers");
  const drivers = members.map(readDriver);
  if (overlap(memory)) throw new Fault("machine: descriptors overlap");
  const granule = file.has("granule") ? file.get("granule") : 1n;
  if (granule !== 1n && granule !== 16n) throw new Fault("machine: granule");
  return { memory, drivers, granule };
}

// ---- What the core is made of, in the form of include/rafkudin.h

export const RECORD = 48;
const DRIVER = { size: 1120, needs: 5, needCount: 136, opens: 144, openCount: 272, children: 280, childCount: 1112 };
const CHILD = { size: 104, count: 96 };
const INTERFACE = { size: 24, value: 16 };

/** EFI_MEMORY_DESCRIPTORs. */
export function recordsOf(memory) {
  const bytes = new Uint8Array(RECORD * memory.length);
  const view = new DataView(bytes.buffer);
  memory.forEach(({ type, first, pages, attributes }, index) => {
    view.setUint32(RECORD * index, type, true);
    view.setBigUint64(RECORD * index + 8, first * PAGE, true);
    view.setBigUint64(RECORD * index + 24, pages, true);
    view.setBigUint64(RECORD * index + 32, attributes, true);
  });
  return bytes;
}

// The sixteen bytes that the standard has for a GUID, whose first three numbers are little endian.
function guidBytes(text) {
  const digits = text.replace(/^urn:uuid:/i, "").replace(/[{}-]/g, "");
  const bytes = digits.match(/../g).map((it) => parseInt(it, 16));
  return [3, 2, 1, 0, 5, 4, 7, 6, 8, 9, 10, 11, 12, 13, 14, 15].map((it) => bytes[it]);
}

/** Drivers, each a `struct rafkudin_driver`. */
export function tablesOf(drivers) {
  const bytes = new Uint8Array(DRIVER.size * drivers.length);
  const view = new DataView(bytes.buffer);
  const put = (at, guid) => bytes.set(guidBytes(guid), at);
  const count = (at, list) => view.setBigUint64(at, BigInt(list.length), true);
  drivers.forEach((driver, index) => {
    const at = DRIVER.size * index;
    view.setUint32(at, driver.version, true);
    bytes[at + 4] = driver.stops ? 1 : 0;
    driver.needs.forEach((guid, k) => put(at + DRIVER.needs + 16 * k, guid));
    count(at + DRIVER.needCount, driver.needs);
    driver.opens.forEach((guid, k) => put(at + DRIVER.opens + 16 * k, guid));
    count(at + DRIVER.openCount, driver.opens);
    driver.children.forEach((child, k) => {
      const to = at + DRIVER.children + CHILD.size * k;
      child.forEach(([guid, value], n) => {
        put(to + INTERFACE.size * n, guid);
        view.setBigUint64(to + INTERFACE.size * n + INTERFACE.value, BigInt(value), true);
      });
      count(to + CHILD.count, child);
    });
    count(at + DRIVER.childCount, driver.children);
  });
  return bytes;
}
