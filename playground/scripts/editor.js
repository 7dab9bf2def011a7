// The trace's text with the numbers of its lines, a line that is marked, and one that is at fault.

const LINE = 20;
const ABOVE = 8;

export class Editor {
  constructor(area, gutter, bands, changed) {
    this.area = area;
    this.gutter = gutter;
    this.bands = bands;
    this.marked = 0;
    this.fault = null;
    area.addEventListener("input", () => {
      this.measure(area.value);
      this.draw();
      changed();
    });
    area.addEventListener("scroll", () => this.draw());
    new ResizeObserver(() => this.draw()).observe(area);
    this.measure("");
  }

  get text() {
    return this.area.value;
  }

  // The width of the numbers is set first: with a long text each change of its own width takes a while.
  set text(text) {
    this.marked = 0;
    this.measure(text);
    this.area.value = text;
    this.area.scrollTop = 0;
    this.draw();
  }

  // Counts the lines, for the numbers beside them.
  measure(text) {
    let count = 1;
    for (let at = text.indexOf("\n"); at >= 0; at = text.indexOf("\n", at + 1)) count += 1;
    this.count = count;
    const digits = Math.max(2, String(count).length);
    if (digits === this.digits) return;
    this.digits = digits;
    this.gutter.parentElement.style.setProperty("--digits", String(digits));
  }

  /** Marks a line, and brings it into view where asked to. */
  mark(number, isShown) {
    this.marked = number;
    const { area } = this;
    const top = (number - 1) * LINE;
    if (isShown && number > 0 && (top < area.scrollTop || top + 2 * LINE > area.scrollTop + area.clientHeight)) {
      area.scrollTop = Math.max(0, top - area.clientHeight / 2);
    }
    this.draw();
  }

  /** Marks the line at fault, or none. */
  blame(fault) {
    if (fault === this.fault) return;
    this.fault = fault;
    this.draw();
  }

  // The numbers of the lines that are in view, and a band behind each line that is marked.
  draw() {
    const { area, gutter, bands } = this;
    const { scrollTop, clientHeight } = area;
    const first = Math.floor(scrollTop / LINE);
    const last = Math.min(this.count, first + Math.ceil(clientHeight / LINE) + 1);
    const rows = [];
    const marks = [];
    for (let number = first + 1; number <= last; number += 1) {
      const isFault = this.fault?.number === number;
      const kind = isFault ? "fault" : number === this.marked ? "marked" : "";
      const row = Object.assign(document.createElement("div"), { className: kind, textContent: String(number) });
      row.style.top = `${ABOVE + (number - 1) * LINE - scrollTop}px`;
      if (isFault) row.title = this.fault.text;
      rows.push(row);
      if (kind) {
        const band = Object.assign(document.createElement("div"), { className: kind });
        band.style.top = row.style.top;
        marks.push(band);
      }
    }
    gutter.replaceChildren(...rows);
    bands.replaceChildren(...marks);
  }
}
