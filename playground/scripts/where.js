// Where pages would go: a placement on a core of its own, made of the map that the page shows, and its certificate.
import { Fault } from "./machine.js";

const ANY = /^bounds (\d+)$/;
const PLACED = /^1 pages SUCCESS address=0x[0-9a-f]+$/;

// The bounds of a certificate block, by the first page of each, and its answer.
function marksOf(block) {
  const lines = block.split("\n");
  const begins = lines.findIndex((line) => ANY.test(line));
  const number = Number(ANY.exec(lines[begins])[1]);
  const bounds = new Map();
  for (const line of lines.slice(begins + 1, begins + 1 + number)) {
    const [first, pages, count, top] = line.split(" ");
    bounds.set(BigInt(first), { pages: BigInt(pages), count: count === "none" ? null : Number(count), top: top && BigInt(top) });
  }
  return { bounds, place: BigInt(lines[begins + 1 + number].split(" ")[1]) };
}

/** The place of pages on a map, with the price of each free entry; without a place the status that says so. */
export function placeOn(room, entries, granule, { kind, type, pages, limit }) {
  const core = room.make({ memory: entries, drivers: [], granule }, true);
  const line = kind === "any" ? `pages 0 ${type} ${pages} 0` : `pages 1 ${type} ${pages} ${limit}`;
  try {
    const text = core.run(1, new TextEncoder().encode(line));
    const head = text.slice(0, text.indexOf("\n"));
    if (!PLACED.test(head)) return { line, status: head.split(" ")[2] };
    const block = text.slice(text.indexOf("\n") + 1);
    return { line, status: "SUCCESS", block, verdict: room.module.check(new TextEncoder().encode(block)), ...marksOf(block),
      after: core.descriptors() };
  } catch (error) {
    if (!(error instanceof Fault)) throw error;
    return { line, status: error.message };
  }
}
