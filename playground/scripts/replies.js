// The replies of a run, line by line. Of a list that may be long only the rows in view are in the document.

const ROW = 20;
const HEAD = /^(\d+) (\S+)(?: (\S+))?(.*)$/s;
// Beyond this many pixels browsers place nothing.
const HIGHEST = 15_000_000;

const span = (kind, text) => Object.assign(document.createElement("span"), { className: kind, textContent: text });

export class Replies {
  constructor(list, { chosen, verdict, edited }) {
    this.list = list;
    this.chosen = chosen;
    this.verdict = verdict;
    this.edited = edited;
    this.inner = document.createElement("div");
    this.inner.className = "rows";
    list.replaceChildren(this.inner);
    list.addEventListener("scroll", () => this.later());
    list.addEventListener("keydown", (event) => this.press(event));
    list.addEventListener("click", (event) => this.click(event));
    new ResizeObserver(() => this.later()).observe(list);
    this.clear();
  }

  clear() {
    this.replies = [];
    this.starts = [0];
    this.unfolded = new Set();
    this.verdicts = new Map();
    this.fault = null;
    this.current = 0;
    this.list.scrollTop = 0;
    this.later();
  }

  /** Takes the replies of a run as far as it has come, and its fault. */
  take(replies, fault) {
    this.replies = replies;
    this.fault = fault;
    for (let index = this.starts.length - 1; index < replies.length; index += 1) {
      this.starts.push(this.starts[index] + this.rowsOf(index));
    }
    this.list.style.setProperty("--digits", String(String(replies[replies.length - 1]?.number ?? 0).length));
    this.later();
  }

  rowsOf(index) {
    const { belowCount, block, blockCount } = this.replies[index];
    return 1 + belowCount + (block ? 1 : 0) + (this.unfolded.has(index) ? blockCount : 0);
  }

  // Where the rows of each reply begin, from one on.
  recount(from) {
    for (let index = from; index < this.replies.length; index += 1) this.starts[index + 1] = this.starts[index] + this.rowsOf(index);
    this.later();
  }

  get total() {
    return this.starts[this.replies.length] + (this.fault ? 1 : 0);
  }

  /** Marks the reply that is the last of a number of them, and brings it into view where asked to. */
  mark(count, isShown) {
    this.current = count;
    if (isShown && count > 0) this.reveal(this.starts[count - 1]);
    this.later();
  }

  reveal(row) {
    const { list } = this;
    const top = row * ROW;
    if (top < list.scrollTop) list.scrollTop = top;
    else if (top + ROW > list.scrollTop + list.clientHeight - 8) list.scrollTop = top - list.clientHeight + ROW + 12;
  }

  /** Brings the last row into view. */
  toEnd() {
    this.reveal(this.total - 1);
  }

  later() {
    if (this.isWaiting) return;
    this.isWaiting = true;
    requestAnimationFrame(() => {
      this.isWaiting = false;
      this.draw();
    });
  }

  // The reply that a row belongs to.
  replyAt(row) {
    let low = 0;
    let high = this.replies.length;
    while (high - low > 1) {
      const middle = (low + high) >> 1;
      if (this.starts[middle] <= row) low = middle; else high = middle;
    }
    return low;
  }

  draw() {
    const { inner, list } = this;
    inner.style.height = `${Math.min(HIGHEST, this.total * ROW + 14)}px`;
    const first = Math.max(0, Math.floor(list.scrollTop / ROW) - 2);
    const end = Math.min(this.total, first + Math.ceil(list.clientHeight / ROW) + 5);
    const rows = [];
    for (let row = first; row < end;) {
      const lines = row >= this.starts[this.replies.length] ? [this.faultRow()] : this.linesOf(this.replyAt(row), row, end);
      for (const line of lines) {
        line.style.top = `${row * ROW}px`;
        rows.push(line);
        row += 1;
      }
    }
    inner.replaceChildren(...rows);
  }

  faultRow() {
    const row = span("row fault", `bootcore: ${this.fault.text}`);
    row.setAttribute("role", "alert");
    return row;
  }

  // The rows of a reply from one on, up to an end.
  linesOf(index, from, end) {
    const reply = this.replies[index];
    const start = this.starts[index];
    const rows = [];
    const below = reply.belowCount > 0 ? reply.below.split("\n") : [];
    const isOpen = this.unfolded.has(index);
    const block = isOpen ? reply.block.split("\n") : [];
    for (let row = from; row < Math.min(end, this.starts[index + 1]); row += 1) {
      const place = row - start;
      if (place === 0) rows.push(this.headRow(index));
      else if (place <= reply.belowCount) rows.push(span("row below", below[place - 1]));
      else if (place === reply.belowCount + 1) rows.push(this.foldRow(index, isOpen));
      else rows.push(span("row block", block[place - reply.belowCount - 2]));
    }
    return rows;
  }

  headRow(index) {
    const [, number, verb, status, rest] = HEAD.exec(this.replies[index].head) ?? ["", "", this.replies[index].head, "", ""];
    const row = span(index + 1 === this.current ? "row head current" : "row head", "");
    row.dataset.reply = index;
    const isStatus = verb !== "list";
    const kind = !isStatus ? "value" : status === "SUCCESS" ? "good" : "refused";
    row.append(span("number", number), " ", span("verb", verb));
    if (status) row.append(" ", span(kind, status));
    row.append(span("value", rest));
    return row;
  }

  foldRow(index, isOpen) {
    const row = span("row fold", "");
    const button = document.createElement("button");
    button.type = "button";
    button.dataset.fold = index;
    button.setAttribute("aria-expanded", String(isOpen));
    button.textContent = `${isOpen ? "▾" : "▸"} certificate`;
    if (!this.verdicts.has(index)) this.verdicts.set(index, this.verdict(this.replies[index].block));
    const verdict = this.verdicts.get(index);
    row.append(button, span(verdict === "accepted" ? "verdict good" : "verdict refused", verdict));
    if (isOpen) {
      const edit = Object.assign(document.createElement("button"), { type: "button", textContent: "change it" });
      edit.dataset.edit = index;
      row.append(edit);
    }
    return row;
  }

  unfold(index) {
    if (!this.unfolded.delete(index)) this.unfolded.add(index);
    this.recount(index);
  }

  click(event) {
    const { fold, edit } = event.target.dataset;
    const head = event.target.closest(".head");
    if (fold !== undefined) this.unfold(Number(fold));
    else if (edit !== undefined) this.edited(this.replies[Number(edit)].block);
    else if (head) this.chosen(Number(head.dataset.reply) + 1);
  }

  press(event) {
    if (event.target !== this.list) return;
    const last = this.replies.length;
    const places = { ArrowDown: this.current + 1, ArrowUp: this.current - 1, Home: 1, End: last,
      PageDown: this.current + 10, PageUp: this.current - 10 };
    if (event.key in places && last > 0) this.chosen(Math.max(1, Math.min(last, places[event.key])));
    else if (event.key === "Enter" && this.current > 0 && this.replies[this.current - 1].block) this.unfold(this.current - 1);
    else return;
    event.preventDefault();
  }
}
