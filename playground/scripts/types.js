// Memory types, attributes and sizes, as the page names and colours them: the colours of tools/draw-map.

const TYPES = new Map([
  [0, ["reserved", "#8b8f98"]],
  [1, ["loader code", "#9a5fd0"]],
  [2, ["loader data", "#cda4ee"]],
  [3, ["boot services code", "#2f6fd0"]],
  [4, ["boot services data", "#86b9f2"]],
  [5, ["runtime services code", "#d9480f"]],
  [6, ["runtime services data", "#f5a04c"]],
  [7, ["conventional", "#3fa66b"]],
  [8, ["unusable", "#5f636b"]],
  [9, ["ACPI reclaim", "#b59a00"]],
  [10, ["ACPI NVS", "#e3c93f"]],
  [11, ["memory mapped I/O", "#c2255c"]],
  [12, ["I/O port space", "#e688a8"]],
  [13, ["PAL code", "#8a6a48"]],
  [14, ["persistent", "#1fa0a4"]],
  [15, ["unaccepted", "#9c9cc4"]],
]);
const OTHER = ["of a vendor or system", "#b0a090"];

export const CONVENTIONAL = 7;
/** The types that a call may ask for, but those of vendors and systems. */
export const ASKED_FOR = [...TYPES.keys()].filter((type) => ![7, 14, 15].includes(type));

export const nameOf = (type) => (TYPES.get(type) ?? OTHER)[0];
export const colourOf = (type) => (TYPES.get(type) ?? OTHER)[1];

const ATTRIBUTES = [
  [0n, "UC"], [1n, "WC"], [2n, "WT"], [3n, "WB"], [4n, "UCE"], [12n, "WP"], [13n, "RP"], [14n, "XP"], [15n, "NV"],
  [16n, "MORE_RELIABLE"], [17n, "RO"], [18n, "SP"], [19n, "CPU_CRYPTO"], [62n, "ISA_VALID"], [63n, "RUNTIME"],
];

/** The names of the attributes that are set. */
export const attributesOf = (bits) => ATTRIBUTES.filter(([bit]) => (bits >> bit) & 1n).map(([, name]) => name).join(" ");

export const hexadecimal = (number) => `0x${number.toString(16)}`;

/** A number of pages as bytes, as a reader says it. */
export function sizeOf(pages) {
  let size = Number(pages) * 4;
  for (const unit of ["KiB", "MiB", "GiB", "TiB", "PiB"]) {
    if (size < 1024) return `${Number.isInteger(size) ? size : size.toFixed(1)} ${unit}`;
    size /= 1024;
  }
  return `${size} EiB`;
}

/** A number of things: of one that has no s behind it, the word for several is given. */
export const plural = (number, word, words = `${word}s`) => `${number.toLocaleString("en")} ${Number(number) === 1 ? word : words}`;

/** An entry of a memory map, in words. */
export function entryWords(entry) {
  const start = entry.first * 4096n;
  const end = (entry.first + entry.pages) * 4096n - 1n;
  const named = attributesOf(entry.attributes);
  return {
    type: `${nameOf(entry.type)} (${entry.type > 15 ? hexadecimal(entry.type) : entry.type})`,
    range: `${hexadecimal(start)} to ${hexadecimal(end)}`,
    size: `${plural(entry.pages, "page")}, ${sizeOf(entry.pages)}`,
    attributes: `${hexadecimal(entry.attributes)}${named ? ` ${named}` : ""}`,
  };
}
