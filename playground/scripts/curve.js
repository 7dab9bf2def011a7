// How many entries the memory map has, along the calls of a trace: a line chart with a mark at one of them.
import { plural } from "./types.js";

// The line is above the slider, from its first place to its last.
const LEFT = 46;
const RIGHT = 46;
const TOP = 10;
const BOTTOM = 18;
const HEIGHT = 130;

// A step of 1, 2 or 5 times a power of ten, of which some three fit.
function tickOf(range) {
  const rough = range / 3;
  const power = 10 ** Math.floor(Math.log10(Math.max(rough, 1)));
  return [1, 2, 5, 10].map((it) => it * power).find((it) => it >= rough) ?? 1;
}

export class Curve {
  constructor(canvas, moved) {
    this.canvas = canvas;
    this.counts = [0];
    this.at = 0;
    canvas.addEventListener("pointerdown", (event) => {
      canvas.setPointerCapture(event.pointerId);
      moved(this.replyAt(event));
    });
    canvas.addEventListener("pointermove", (event) => {
      if (event.buttons) moved(this.replyAt(event));
    });
    new ResizeObserver(() => this.draw()).observe(canvas.parentElement);
  }

  show(counts, at) {
    this.counts = counts;
    this.at = at;
    this.draw();
  }

  replyAt(event) {
    const box = this.canvas.getBoundingClientRect();
    const share = (event.clientX - box.left - LEFT) / (box.width - LEFT - RIGHT);
    return Math.round(Math.max(0, Math.min(1, share)) * (this.counts.length - 1));
  }

  draw() {
    const { canvas, counts } = this;
    const width = canvas.parentElement.clientWidth;
    if (width === 0) return;
    const scale = window.devicePixelRatio || 1;
    canvas.width = Math.round(width * scale);
    canvas.height = Math.round(HEIGHT * scale);
    canvas.style.height = `${HEIGHT}px`;
    const context = canvas.getContext("2d");
    context.scale(scale, scale);
    const style = getComputedStyle(canvas);
    const colour = (name) => style.getPropertyValue(name).trim();
    const ends = this.endsOf();
    const place = {
      x: (reply) => LEFT + (reply / Math.max(1, counts.length - 1)) * (width - LEFT - RIGHT),
      y: (count) => TOP + (1 - (count - ends.low) / (ends.high - ends.low)) * (HEIGHT - TOP - BOTTOM),
    };
    this.drawGrid(context, ends, place, width, colour);
    this.drawLine(context, place, width, colour("--accent"));
    this.drawAt(context, place, colour);
  }

  endsOf() {
    let low = Infinity;
    let high = 0;
    for (const count of this.counts) {
      low = Math.min(low, count);
      high = Math.max(high, count);
    }
    const tick = tickOf(Math.max(4, high - low));
    return { low: Math.floor(low / tick) * tick, high: Math.max(Math.ceil((high + 0.5) / tick), 1) * tick, tick };
  }

  drawGrid(context, ends, place, width, colour) {
    context.font = "11px system-ui, sans-serif";
    context.fillStyle = colour("--faint");
    context.strokeStyle = colour("--line");
    context.lineWidth = 1;
    context.textAlign = "right";
    for (let count = ends.low; count <= ends.high; count += ends.tick) {
      const y = Math.round(place.y(count)) + 0.5;
      context.beginPath();
      context.moveTo(LEFT, y);
      context.lineTo(width - RIGHT, y);
      context.stroke();
      context.fillText(String(count), LEFT - 6, y + 4);
    }
    context.textAlign = "left";
    context.fillText("start", LEFT, HEIGHT - 4);
    context.textAlign = "right";
    context.fillText(plural(this.counts.length - 1, "reply", "replies"), width - RIGHT, HEIGHT - 4);
  }

  // Of the replies that share a column of pixels, the least and the most are drawn.
  drawLine(context, place, width, colour) {
    const { counts } = this;
    context.strokeStyle = colour;
    context.lineWidth = 1.75;
    context.lineJoin = "round";
    context.beginPath();
    const each = Math.max(1, Math.floor(counts.length / (2 * width)));
    context.moveTo(place.x(0), place.y(counts[0]));
    for (let reply = 0; reply < counts.length; reply += each) {
      let low = counts[reply];
      let high = low;
      const end = Math.min(counts.length, reply + each);
      for (let index = reply; index < end; index += 1) {
        low = Math.min(low, counts[index]);
        high = Math.max(high, counts[index]);
      }
      if (each === 1 && reply > 0) context.lineTo(place.x(reply), place.y(counts[reply - 1]));
      context.lineTo(place.x(reply), place.y(low));
      if (high !== low) context.lineTo(place.x(reply), place.y(high));
      context.lineTo(place.x(end - 1), place.y(counts[end - 1]));
    }
    context.stroke();
  }

  drawAt(context, place, colour) {
    const { at, counts } = this;
    const x = place.x(at);
    const y = place.y(counts[at]);
    context.strokeStyle = colour("--ink");
    context.lineWidth = 1;
    context.beginPath();
    context.moveTo(x, TOP - 4);
    context.lineTo(x, HEIGHT - BOTTOM);
    context.stroke();
    context.fillStyle = colour("--ink");
    context.beginPath();
    context.arc(x, y, 4, 0, 2 * Math.PI);
    context.fill();
  }
}
