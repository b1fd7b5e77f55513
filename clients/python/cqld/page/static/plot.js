// A plot over instants that moves on as answers come.

import { drawn, element, instant, number, short, time } from "./words.js";

const LEFT = 58, RIGHT = 16, TOP = 10, BOTTOM = 26, MOVING = 320;
export const SERIES = 8;
const still = window.matchMedia("(prefers-reduced-motion: reduce)");

/** Returns round numbers from low to high, about as many as asked for. */
export function ticks(low, high, about, whole) {
  const rough = (high - low) / Math.max(1, about);
  if (!(rough > 0)) return [low];
  const power = 10 ** Math.floor(Math.log10(rough));
  let step = power * [1, 2, 5, 10].find((factor) => factor * power >= rough * 0.999);
  if (whole) step = Math.max(1, Math.round(step));
  const result = [];
  const little = step * 1e-9; // what rounding may do
  for (let i = Math.ceil((low - little) / step); i * step <= high + little; i += 1) {
    result.push(i * step || 0);
  }
  return result;
}

/** Returns round times from low to high, as instants of a clock. */
function timeTicks(low, high, about, { unit, start }) {
  const steps = [1, 2, 5, 10, 15, 30, 60, 120, 300, 600, 900, 1800, 3600, 7200, 10800, 21600, 43200,
    86400, 172800, 604800, 2592000, 7776000, 31536000, 315360000];
  const rough = (high - low) * unit / Math.max(1, about);
  const step = steps.find((seconds) => seconds >= rough && seconds >= unit);
  if (!step) return ticks(low, high, about, true);
  const result = [], [from, to] = [start + low * unit, start + high * unit];
  for (let i = Math.ceil(from / step); i * step <= to; i += 1) {
    result.push((i * step - start) / unit);
  }
  return result;
}

/** Draws series of points into a place, and shows the values under the pointer. */
export class Plot {
  constructor(place) {
    this.place = place;
    this.data = { series: [], clock: null, bars: false };
    this.shown = null; // the domain that is drawn: [x0, x1, y0, y1]
    this.frame = 0;
    this.pointer = null;
    new ResizeObserver(() => this.draw()).observe(place);
    place.addEventListener("pointermove", (event) => {
      this.pointer = event.clientX - place.getBoundingClientRect().left;
      this.draw();
    });
    place.addEventListener("pointerleave", () => { this.pointer = null; this.draw(); });
  }

  /** Shows data; from what was shown it moves, unless `jump` says not to. */
  show(data, jump) {
    this.data = data;
    const to = this.domain();
    cancelAnimationFrame(this.frame);
    if (jump || !this.shown || still.matches || document.hidden) {
      this.shown = to;
      this.draw();
      return;
    }
    const from = this.shown, begun = performance.now();
    const step = (now) => {
      const part = Math.min(1, Math.max(0, (now - begun) / MOVING));
      const eased = 1 - (1 - part) ** 3;
      this.shown = from.map((value, i) => value + (to[i] - value) * eased);
      this.draw();
      if (part < 1) this.frame = requestAnimationFrame(step);
    };
    this.frame = requestAnimationFrame(step);
  }

  domain() {
    const { series, span, bars } = this.data;
    let x0 = Infinity, x1 = -Infinity, y0 = Infinity, y1 = -Infinity;
    for (const { points } of series) {
      if (points.length) x1 = Math.max(x1, points[points.length - 1][0]);
    }
    for (const { points } of series) {
      for (const [x, y] of points) {
        if (span && x <= x1 - span) continue;
        x0 = Math.min(x0, x);
        if (y !== null) { y0 = Math.min(y0, y); y1 = Math.max(y1, y); }
      }
    }
    if (x1 === -Infinity) return [0, 1, 0, 1];
    if (span && x1 - x0 > span / 2) x0 = Math.max(x0, x1 - span);
    if (bars) { x0 -= 0.5; x1 += 0.5; }
    if (x0 === x1) x0 -= 1;
    if (y0 > y1) [y0, y1] = [0, 1];
    if (bars || (y0 > 0 && y0 < (y1 - y0) * 0.6)) y0 = 0;
    if (y0 === y1) { y0 -= y0 === 0 ? 0 : Math.abs(y0) * 0.05; y1 += Math.abs(y1) * 0.05 || 1; }
    const room = (y1 - y0) * 0.06;
    return [x0, x1, y0 === 0 ? 0 : y0 - room, y1 + room];
  }

  draw() {
    const { series, clock, bars } = this.data;
    const wide = this.place.clientWidth, high = this.place.clientHeight;
    if (!this.shown || wide < 40) return;
    const [x0, x1, y0, y1] = this.shown;
    const x = (value) => LEFT + (wide - LEFT - RIGHT) * (value - x0) / (x1 - x0 || 1);
    const y = (value) => high - BOTTOM - (high - TOP - BOTTOM) * (value - y0) / (y1 - y0 || 1);
    const svg = drawn("svg", { width: wide, height: high, viewBox: `0 0 ${wide} ${high}`,
      role: "img", "aria-label": `${series.length} lines over instants` });
    for (const tick of ticks(y0, y1, high / 56, false)) {
      svg.append(line("grid", LEFT, y(tick), wide - RIGHT, y(tick)),
        drawn("text", { x: LEFT - 8, y: y(tick) + 4, "text-anchor": "end" }, short(tick)));
    }
    const about = (wide - LEFT) / (clock ? 110 : 90);
    for (const tick of clock ? timeTicks(x0, x1, about, clock) : ticks(x0, x1, about, true)) {
      const at = x(tick), last = at > wide - RIGHT - 24;
      const place = { x: last ? wide - RIGHT + 8 : at, y: high - 8 };
      const days = clock && (x1 - x0) * clock.unit > 172800;
      svg.append(line("axis", at, high - BOTTOM, at, high - BOTTOM + 4),
        drawn("text", { ...place, "text-anchor": last ? "end" : "middle" },
          time(tick, clock, days)));
    }
    svg.append(line("axis", LEFT, high - BOTTOM, wide - RIGHT, high - BOTTOM));
    const part = { x: LEFT - 4, y: 0, width: wide - LEFT - RIGHT + 8, height: high - BOTTOM + 1 };
    const inside = drawn("svg", {
      ...part, viewBox: `${part.x} 0 ${part.width} ${part.height}`, overflow: "hidden",
    });
    series.forEach(({ points }, i) => {
      if (bars) inside.append(...this.bars(points, x, y, x1 - x0, wide));
      else inside.append(...this.line(points, i, x, y, x0, x1));
    });
    svg.append(inside);
    const tip = this.tip(svg, x, wide, high);
    this.place.replaceChildren(svg, ...tip);
  }

  line(points, i, x, y, x0, x1) {
    const parts = [], seen = [];
    let pen = "M";
    for (const [at, value] of points) {
      if (value === null) { pen = "M"; continue; }
      parts.push(`${pen}${x(at).toFixed(1)} ${y(value).toFixed(1)}`);
      pen = "L";
      if (at >= x0 && at <= x1) seen.push([at, value]);
    }
    const made = [drawn("path", { class: `trace s${i % SERIES}`, d: parts.join("") })];
    const dots = seen.length <= 40 ? seen : seen.slice(-1);
    for (const [at, value] of dots) {
      made.push(drawn("circle", { class: `dot s${i % SERIES}`, cx: x(at), cy: y(value), r: 3 }));
    }
    return made;
  }

  bars(points, x, y, span, wide) {
    const thick = Math.max(1.5, Math.min(14, (wide - LEFT - RIGHT) / span - 1));
    return points.map(([at, value]) => drawn("rect", {
      class: "bar-mark", x: x(at) - thick / 2, y: y(value), width: thick,
      height: Math.max(0, y(0) - y(value)), rx: Math.min(2, thick / 3),
    }));
  }

  tip(svg, x, wide, high) {
    if (this.pointer === null) return [];
    let best = null;
    for (const { points } of this.data.series) {
      for (const [at] of points) {
        const away = Math.abs(x(at) - this.pointer);
        if (x(at) >= LEFT - 1 && (best === null || away < best.away)) best = { at, away };
      }
    }
    if (best === null) return [];
    svg.append(line("cross", x(best.at), TOP, x(best.at), high - BOTTOM));
    const box = element("div", "tip");
    box.append(element("b", "", instant(best.at, this.data.clock)));
    this.data.series.forEach(({ name, points }, i) => {
      const found = points.filter(([at, value]) => at === best.at && value !== null);
      if (found.length === 0) return;
      const line = element("div"), label = element("span");
      label.append(swatch(i), document.createTextNode(name));
      line.append(label, element("b", "", number(found[found.length - 1][1])));
      box.append(line);
    });
    const left = x(best.at) > wide / 2;
    box.style[left ? "right" : "left"] = `${left ? wide - x(best.at) + 12 : x(best.at) + 12}px`;
    return [box];
  }
}

function line(name, x1, y1, x2, y2) {
  return drawn("line", { class: name, x1, y1, x2, y2 });
}

/** Returns a short piece of a line of a series, for a legend. */
export function swatch(i) {
  const svg = drawn("svg", { width: 18, height: 8 });
  svg.append(drawn("line", { class: `trace s${i % SERIES}`, x1: 1, x2: 17, y1: 4, y2: 4 }));
  return svg;
}
