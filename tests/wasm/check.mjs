// Cores in regions as WebAssembly, in Node.js or, by page.html, in a browser: places, maps, pool bytes and refusals.
// Node.js 20 needs --experimental-wasm-memory64.
export const SUCCESS = 0n;
export const INVALID_PARAMETER = 0x8000000000000002n;
export const BUFFER_TOO_SMALL = 0x8000000000000005n;
export const OUT_OF_RESOURCES = 0x8000000000000009n;

// The library's functions on the memory of an instance, with room behind the module's own data.
class Library {
  constructor(instance, pages) {
    this.calls = instance.exports;
    this.memory = instance.exports.memory;
    this.free = BigInt(this.memory.buffer.byteLength);
    // By the standard a 64-bit memory grows by a BigInt; older engines take a number.
    try {
      this.memory.grow(BigInt(pages));
    } catch {
      this.memory.grow(pages);
    }
  }

  view() {
    return new DataView(this.memory.buffer);
  }

  // Takes bytes that no call uses for anything else, and answers their address.
  take(size) {
    const at = this.free;
    this.free += BigInt((size + 15) & ~15);
    return at;
  }

  number(at) {
    return this.view().getBigUint64(Number(at), true);
  }

  put(at, ...numbers) {
    numbers.forEach((it, i) => this.view().setBigUint64(Number(at) + 8 * i, BigInt.asUintN(64, it), true));
  }
}

const as_status = (it) => BigInt.asUintN(64, it);

// Tries the module, and answers a list of what does not hold.
export async function check(bytes) {
  const faults = [];
  const holds = (what, it) => it || faults.push(what);
  const module = await WebAssembly.compile(bytes);
  holds("nothing is imported", WebAssembly.Module.imports(module).length === 0);
  const library = new Library(await WebAssembly.instantiate(module, {}), 64);
  const { calls } = library;
  holds("its version", calls.RafkudinVersion() === 0x100);

  // A machine of 256 free pages from page 1 on.
  const record = library.take(48), region = library.take(1 << 20), handed = library.take(16), place = library.take(8);
  library.put(record, 7n, 0x1000n, 0n, 256n, 15n, 0n);
  const make = (units) => {
    library.put(handed, region, units);
    library.put(place, 0n);
    const status = as_status(calls.RafkudinMakeInRegion(handed, record, 48n, 48n, 1n, record, 0n, place));
    return [status, library.number(place)];
  };
  holds("a region of no units is too small", make(0n)[0] === OUT_OF_RESOURCES);
  holds("a region of 100 units is too small", make(100n)[0] === OUT_OF_RESOURCES);
  const [made, core] = make(65536n);
  holds("a core is made in a MiB", made === SUCCESS && core > region && core < region + (1n << 20n));

  const memory = library.take(8);
  library.put(memory, 0n);
  holds("ten pages", as_status(calls.RafkudinAllocatePages(core, 0, 2, 10n, memory)) === SUCCESS);
  holds("at the top", library.number(memory) === 0xf7000n);
  holds("no pages", as_status(calls.RafkudinAllocatePages(core, 0, 2, 0n, memory)) === INVALID_PARAMETER);
  holds("two entries", calls.RafkudinDescriptors(core) === 2n);
  const entry = library.take(32);
  holds("the second", as_status(calls.RafkudinDescriptor(core, 1n, entry)) === SUCCESS);
  holds("its type", library.view().getUint32(Number(entry), true) === 2);
  holds("its range", library.number(entry + 8n) === 0xf7000n && library.number(entry + 16n) === 10n);

  const map = library.take(4096), size = library.take(8), key = library.take(8), each = library.take(8);
  const version = library.take(8);
  library.put(size, 0n);
  const get_map = (room) => as_status(calls.RafkudinGetMemoryMapInto(core, map, room, size, key, each, version));
  holds("a map in no bytes", get_map(0n) === BUFFER_TOO_SMALL && library.number(size) === 96n);
  holds("a map", get_map(4096n) === SUCCESS && library.number(map + 48n + 8n) === 0xf7000n);

  const block = library.take(8), text = library.take(64);
  holds("a block of the pool", as_status(calls.RafkudinAllocatePool(core, 4, 100n, block)) === SUCCESS);
  library.put(text, 0x1122334455667788n);
  holds("written", as_status(calls.RafkudinPoolWrite(core, library.number(block), text, 8n)) === SUCCESS);
  holds("read", as_status(calls.RafkudinPoolRead(core, library.number(block), text + 16n, 16n)) === SUCCESS);
  holds("its bytes", library.number(text + 16n) === 0x1122334455667788n && library.number(text + 24n) === 0n);

  // Calls until the region is full, and the same once more after all pages are free again.
  const fill = () => {
    let count = 0n;
    for (; count < 100n; count++) {
      library.put(memory, 0x1000n + 0x2000n * count);
      if (as_status(calls.RafkudinAllocatePages(core, 2, Number(1n + (count % 6n)), 1n, memory)) !== SUCCESS) break;
    }
    return count;
  };
  const count = fill();
  holds("pages one by one", count === 100n);
  for (let at = 0n; at < count; at++)
    holds("freed", as_status(calls.RafkudinFreePages(core, 0x1000n + 0x2000n * at, 1n)) === SUCCESS);
  holds("again", fill() === count);
  calls.RafkudinFree(core);
  return faults;
}
