// The memory map of a run: the curve, the slider, the pictures before and after, and the legend.
import { Curve } from "./curve.js";
import { Picture, widthOf } from "./picture.js";
import { colourOf, nameOf, plural } from "./types.js";

// Of how many maps of a run the width is taken, to have one scale for all.
const SAMPLES = 50;

const entriesIn = (number) => plural(number, "entry", "entries");

export class MapView {
  constructor($, moved) {
    this.$ = $;
    this.count = 0;
    this.run = null;
    this.earlier = null;
    const described = (words) => { $("entry-said").textContent = words; };
    this.before = new Picture($("before"), $("tip"), described);
    this.after = new Picture($("after"), $("tip"), described);
    this.curve = new Curve($("curve"), moved);
    $("slider").addEventListener("input", () => this.later(moved));
    $("before-what").addEventListener("change", () => this.run && this.go(this.count));
    $("back").addEventListener("click", () => moved(Math.max(0, this.count - 1)));
    $("forth").addEventListener("click", () => moved(Math.min(Number($("slider").max), this.count + 1)));
    window.addEventListener("theme", () => {
      for (const part of [this.before, this.after, this.curve]) part.draw();
    });
  }

  // The slider's place is shown once a frame.
  later(moved) {
    if (this.isWaiting) return;
    this.isWaiting = true;
    requestAnimationFrame(() => {
      this.isWaiting = false;
      moved(Number(this.$("slider").value));
    });
  }

  clear() {
    this.run = null;
    this.$("map-panel").hidden = true;
  }

  /** Takes a run that is at its end. */
  show(run) {
    const { $ } = this;
    const { history, replies } = run;
    this.run = run;
    $("map-panel").hidden = false;
    $("slider").max = replies.length;
    this.weight = 0;
    const each = Math.max(1, Math.floor(history.changes.length / SAMPLES));
    for (let index = history.changes.length - 1; index >= 0; index -= each) {
      this.weight = Math.max(this.weight, widthOf(history.after(history.changes[index].reply)));
    }
    this.before.reset();
    this.after.reset();
    this.earlier = null;
    $("map-said").textContent = `${entriesIn(history.counts[0])} at first, ${history.most.toLocaleString("en")} at most, `
      + `${history.counts[history.counts.length - 1].toLocaleString("en")} in the end`;
  }

  /** Shows the map after a number of replies, and returns it. */
  go(count) {
    const { $ } = this;
    const { history, replies } = this.run;
    const entries = history.after(count);
    const from = $("before-what").value === "reply" ? Math.max(0, count - 1) : 0;
    const earlier = history.after(from);
    this.count = count;
    $("slider").value = count;
    $("slider").setAttribute("aria-valuetext", `after reply ${count} of ${replies.length}`);
    $("at-said").textContent = count === 0 ? "before the first call" : replies[count - 1].head;
    $("after-said").textContent = count === 0 ? `now: ${entriesIn(entries.length)}`
      : `after line ${replies[count - 1].number}: ${entriesIn(history.counts[count])}`;
    $("before-said").textContent = entriesIn(history.counts[from]);
    if (earlier !== this.earlier) this.before.show(earlier, this.weight);
    this.earlier = earlier;
    this.after.show(entries, this.weight);
    this.curve.show(history.counts, count);
    this.tellTypes(earlier, entries);
    return entries;
  }

  // How many entries each type has, before and after.
  tellTypes(earlier, entries) {
    const numbers = new Map();
    const add = (list, place) => list.forEach(({ type }) => {
      const name = nameOf(type);
      if (!numbers.has(name)) numbers.set(name, { type, counts: [0, 0] });
      numbers.get(name).counts[place] += 1;
    });
    add(earlier, 0);
    add(entries, 1);
    const items = [...numbers].sort((one, other) => one[1].type - other[1].type).map(([name, { type, counts }]) => {
      const item = document.createElement("li");
      const chip = document.createElement("i");
      chip.style.background = colourOf(type);
      const number = Object.assign(document.createElement(counts[0] === counts[1] ? "span" : "strong"),
        { textContent: counts[0] === counts[1] ? counts[0] : `${counts[0]} → ${counts[1]}` });
      item.append(chip, `${name} `, number);
      item.title = `${plural(counts[0], "descriptor")} before, ${counts[1]} after`;
      return item;
    });
    this.$("legend").replaceChildren(...items);
  }
}
