// A memory map as a picture, as tools/draw-map draws it: a block is an entry, wider by one step for twice the pages; a gap
// has no entry.
import { colourOf, entryWords, hexadecimal } from "./types.js";

const ROW = 20;
const ROW_STEP = 26;
const GAP = 10;
// How wide twice the pages are: at most, in a map of one row, and in one of more.
const MAX_STEP_IN_ONE_ROW = 16;
const MAX_STEP = 5;
const MAX_ROWS = 80;
const LABEL = 11;

const pixelsOf = (context, name) => getComputedStyle(context.canvas).getPropertyValue(name).trim();

/** How wide an entry is drawn. */
const weightOf = (entry) => 1 + Math.log2(Number(entry.pages));

export const widthOf = (entries) => entries.reduce((sum, entry) => sum + weightOf(entry), 0);

const isGap = (before, entry) => before !== undefined && before.first + before.pages !== entry.first;

const gapsOf = (entries) => entries.filter((entry, index) => isGap(entries[index - 1], entry)).length;

/** The blocks of a map, one after the other, in rows as words in lines. */
export function rowsOf(entries, step, room) {
  const rows = [];
  let at = 0;
  entries.forEach((entry, index) => {
    let wide = Math.max(1, step * weightOf(entry));
    if (isGap(entries[index - 1], entry)) at += GAP;
    if (rows.length === 0 || at + wide > room) {
      rows.push([]);
      at = 0;
      wide = Math.min(wide, room);
    }
    rows[rows.length - 1].push({ at, wide, entry, index });
    at += wide;
  });
  return rows;
}

// How wide twice the pages are in a map of this weight.
function stepOf(weight, room) {
  const inOneRow = (0.96 * room) / Math.max(1, weight);
  return inOneRow >= MAX_STEP ? Math.min(MAX_STEP_IN_ONE_ROW, inOneRow) : Math.min(MAX_STEP, MAX_ROWS * inOneRow);
}

/** A picture on a canvas, with a box that says what the pointer or the keyboard is at. */
export class Picture {
  constructor(canvas, tip, described) {
    this.canvas = canvas;
    this.tip = tip;
    this.described = described;
    this.entries = [];
    this.rows = [];
    this.chosen = -1;
    this.leastRows = 0;
    this.weight = 0;
    this.gaps = 0;
    this.marks = null;
    canvas.addEventListener("pointermove", (event) => this.pointAt(event));
    canvas.addEventListener("pointerdown", (event) => this.pointAt(event));
    canvas.addEventListener("pointerleave", () => this.choose(-1));
    canvas.addEventListener("blur", () => this.choose(-1));
    canvas.addEventListener("keydown", (event) => this.press(event));
    new ResizeObserver(() => this.draw()).observe(canvas.parentElement);
  }

  /** Shows a map. `weight` is that of the widest map to come, so that all have one scale. */
  show(entries, weight = 0, marks = null) {
    this.entries = entries;
    this.weight = Math.max(weight, widthOf(entries));
    // Maps that share a scale share it whatever gaps they have.
    this.gaps = weight > 0 ? 0 : gapsOf(entries);
    this.marks = marks;
    this.chosen = Math.min(this.chosen, entries.length - 1);
    this.draw();
  }

  /** Forgets how high the picture was. */
  reset() {
    this.leastRows = 0;
  }

  draw() {
    const { canvas, entries } = this;
    const width = canvas.parentElement.clientWidth;
    if (width === 0) return;
    const context = canvas.getContext("2d");
    const highest = entries.length ? hexadecimal(entries[entries.length - 1].first * 4096n) : "";
    this.left = Math.min(14 + 6.7 * highest.length, width / 3);
    const room = width - this.left;
    this.step = this.marks ? ROW_STEP + 16 : ROW_STEP;
    this.rows = rowsOf(entries, stepOf(this.weight, room - GAP * this.gaps), room);
    this.leastRows = Math.max(this.leastRows, this.rows.length);
    this.resize(width, this.leastRows * this.step);
    context.setTransform(this.scale, 0, 0, this.scale, 0, 0);
    context.clearRect(0, 0, width, this.leastRows * this.step);
    const faint = pixelsOf(context, "--faint");
    const ink = pixelsOf(context, "--ink");
    this.rows.forEach((blocks, row) => this.drawRow(context, blocks, row * this.step, faint, ink));
  }

  resize(width, height) {
    const { canvas } = this;
    this.scale = window.devicePixelRatio || 1;
    const wide = Math.round(width * this.scale);
    const high = Math.round(height * this.scale);
    if (canvas.width !== wide) canvas.width = wide;
    if (canvas.height !== high) canvas.height = high;
    canvas.style.width = `${width}px`;
    canvas.style.height = `${height}px`;
  }

  drawRow(context, blocks, top, faint, ink) {
    const below = this.marks ? top + 16 : top;
    context.font = `${LABEL}px ui-monospace, Menlo, "DejaVu Sans Mono", monospace`;
    context.textAlign = "right";
    context.fillStyle = faint;
    context.fillText(hexadecimal(blocks[0].entry.first * 4096n), this.left - 8, below + 14);
    for (const block of blocks) {
      const shown = block.wide > 2.5 ? block.wide - 1 : block.wide;
      context.fillStyle = colourOf(block.entry.type);
      context.fillRect(this.left + block.at, below, shown, ROW);
      if (this.marks) this.drawMark(context, block, below, shown, faint, ink);
      if (block.index === this.chosen) {
        context.strokeStyle = ink;
        context.lineWidth = 2;
        context.strokeRect(this.left + block.at + 1, below + 1, Math.max(1, shown - 2), ROW - 2);
      }
    }
  }

  // The price of an entry above it, and the place in it.
  drawMark(context, block, below, shown, faint, ink) {
    const { bounds, place } = this.marks;
    const bound = bounds.get(block.entry.first);
    const isHere = place >= block.entry.first && place < block.entry.first + block.entry.pages;
    if (bound) {
      context.textAlign = "center";
      context.fillStyle = isHere ? ink : faint;
      context.font = `${isHere ? "bold " : ""}${LABEL}px system-ui, sans-serif`;
      const label = bound.count ?? "–";
      if (isHere || context.measureText(label).width <= shown + 4) {
        context.fillText(label, this.left + block.at + shown / 2, below - 4);
      }
    }
    if (!isHere) return;
    const share = Number(((place - block.entry.first) * 1000n) / block.entry.pages) / 1000;
    const part = Number((this.marks.pages * 1000n) / block.entry.pages) / 1000;
    const wide = Math.max(3, part * shown);
    const at = this.left + block.at + Math.min(share * shown, shown - wide);
    context.fillStyle = colourOf(this.marks.type);
    context.fillRect(at, below, wide, ROW);
    context.strokeStyle = ink;
    context.lineWidth = 1.5;
    context.strokeRect(at, below - 1, wide, ROW + 2);
  }

  pointAt(event) {
    const box = this.canvas.getBoundingClientRect();
    const row = this.rows[Math.floor((event.clientY - box.top) / this.step)] ?? [];
    const at = event.clientX - box.left - this.left;
    const found = row.find((block) => at >= block.at && at < block.at + Math.max(block.wide, 3));
    this.choose(found ? found.index : -1, event.clientX, event.clientY);
  }

  press(event) {
    const steps = { ArrowRight: 1, ArrowDown: 1, ArrowLeft: -1, ArrowUp: -1 };
    if (event.key in steps && this.entries.length > 0) {
      const next = this.chosen < 0 ? 0 : this.chosen + steps[event.key];
      this.choose(Math.max(0, Math.min(this.entries.length - 1, next)));
    } else if (event.key === "Escape") {
      this.choose(-1);
    } else {
      return;
    }
    event.preventDefault();
  }

  // Marks an entry, and says what it is: beside the pointer, or below the block.
  choose(index, x, y) {
    if (index !== this.chosen) {
      this.chosen = index;
      this.draw();
    }
    this.tip.hidden = index < 0;
    if (index < 0) return;
    const entry = this.entries[index];
    const words = entryWords(entry);
    const bound = this.marks?.bounds.get(entry.first);
    const lines = [words.type, words.range, words.size, words.attributes];
    if (bound) lines.push(bound.count ? `price: ${bound.count} entries afterwards` : "no permitted start");
    this.tip.replaceChildren(...lines.map((line, at) => Object.assign(document.createElement(at ? "div" : "strong"),
      { textContent: line })));
    if (this.described) this.described(lines.join("; "));
    const isPointed = x !== undefined;
    if (!isPointed) [x, y] = this.corner(index);
    const wide = this.tip.offsetWidth;
    const high = this.tip.offsetHeight;
    const above = y - high - (isPointed ? 10 : this.step + 6);
    this.tip.style.left = `${Math.max(4, Math.min(x + 14, window.innerWidth - wide - 8))}px`;
    this.tip.style.top = `${y + high + 22 > window.innerHeight ? above : y + (isPointed ? 16 : 6)}px`;
  }

  // Where a block's lower left corner is in the window.
  corner(index) {
    const row = this.rows.findIndex((blocks) => blocks.some((block) => block.index === index));
    const block = this.rows[row].find((it) => it.index === index);
    const box = this.canvas.getBoundingClientRect();
    return [box.left + this.left + block.at, box.top + row * this.step + this.step];
  }
}
