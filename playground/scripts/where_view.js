// The panel that asks where pages would go.
import { Picture } from "./picture.js";
import { ASKED_FOR, hexadecimal, nameOf, plural } from "./types.js";
import { placeOn } from "./where.js";

const PAUSE = 60;
const NUMBER = /^(?:0x[0-9a-fA-F]{1,16}|[0-9]{1,20})$/;
const FIRST_CHOICE = 4;

export class WhereView {
  constructor($, room) {
    this.$ = $;
    this.room = room;
    this.entries = null;
    this.picture = new Picture($("where-map"), $("tip"), (words) => { $("entry-said").textContent = words; });
    $("where-type").append(...ASKED_FOR.map((type) => new Option(`${type}: ${nameOf(type)}`, type)));
    $("where-type").value = FIRST_CHOICE;
    $("where").addEventListener("input", () => this.show());
    $("where").addEventListener("submit", (event) => event.preventDefault());
    window.addEventListener("theme", () => this.picture.draw());
  }

  clear() {
    this.entries = null;
    this.$("where-panel").hidden = true;
  }

  /** Takes the map that is shown now. The picture follows once that stays. */
  ask(entries, granule, isExited) {
    Object.assign(this, { entries, granule, isExited });
    this.$("where-panel").hidden = false;
    clearTimeout(this.waiting);
    this.waiting = setTimeout(() => this.show(), PAUSE);
  }

  asked() {
    const { $ } = this;
    return { kind: $("where-kind").value, type: Number($("where-type").value), pages: $("where-pages").value.trim(),
      limit: $("where-limit").value.trim() };
  }

  show() {
    const { $ } = this;
    const asked = this.asked();
    $("where-below").hidden = asked.kind === "any";
    if (!this.entries) return;
    const isNumber = NUMBER.test(asked.pages) && (asked.kind === "any" || NUMBER.test(asked.limit));
    const found = isNumber ? placeOn(this.room, this.entries, this.granule, asked) : { status: "a number is needed" };
    const isPlaced = found.status === "SUCCESS";
    $("where-said").replaceChildren(...(isPlaced ? this.sayPlace(found) : [found.status]));
    $("where-said").className = isPlaced ? "" : "refused";
    $("where-proof").hidden = !isPlaced;
    $("where-note").hidden = !isPlaced;
    $("where-block").textContent = isPlaced ? found.block : "";
    const pages = isPlaced ? BigInt(asked.pages) : 0n;
    const marks = isPlaced ? { ...found, type: asked.type, pages } : null;
    this.picture.reset();
    this.picture.show(this.entries, 0, marks);
  }

  sayPlace({ place, bounds, after, verdict }) {
    const strong = (text) => Object.assign(document.createElement("strong"), { textContent: text });
    const prices = [...bounds.values()].filter((it) => it.count !== null).map((it) => it.count);
    const dearer = prices.filter((it) => it > after).length;
    const now = this.entries.length;
    const others = prices.length === 1 ? "it is the only free entry with room"
      : dearer === 0 ? `all ${prices.length} free entries with room have that price, and it is the highest place`
        : `of ${prices.length} free entries with room ${dearer} would cost more, up to ${Math.max(...prices)}`;
    return ["At ", strong(hexadecimal(place * 4096n)), `. The map then has ${plural(after, "entry", "entries")}, `
      + `where it has ${now} now; ${others}. The checker says of the certificate: `, strong(verdict), ".",
      ...(this.isExited ? [" (Boot services have ended by then, so a call would return UNSUPPORTED.)"] : [])];
  }
}
