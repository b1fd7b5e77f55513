// Draws a query's plan: its operators from the windows to the root, each with its slope.

import { drawn } from "./words.js";

const WIDEST = 124, NARROWEST = 94, HIGH = 62, BETWEEN = 30, APART = 14, EDGE = 2;
const SMALLEST = 0.74; // how far a plan is made smaller before it reads from the top down

/** Returns each operator's inputs by number: windows begin ways, and a join takes the first two. */
export function inputs(kinds) {
  const ways = [], result = [];
  kinds.forEach((kind, place) => {
    if (kind === "Window" || ways.length === 0) {
      result.push([]);
      ways.push(place);
    } else if (kind === "Join" && ways.length > 1) {
      result.push(ways.splice(0, 2));
      ways.unshift(place);
    } else {
      const way = kinds[place - 1] === "Window" ? ways.length - 1 : 0;
      result.push([ways[way]]);
      ways[way] = place;
    }
  });
  return result;
}

/** Returns a slope's value: "250000/1" is 250,000. */
export function value(slope) {
  const [over, under] = slope.split("/").map(Number);
  return under ? over / under : 0;
}

/** Draws operators, each its kind and its slope, into a place as wide as it is. */
export function drawPlan(place, operators) {
  place.replaceChildren();
  if (operators.length === 0) return;
  const kinds = operators.map(([kind]) => kind);
  const slopes = operators.map(([, slope]) => value(slope));
  const most = Math.max(...slopes, 1);
  const from = inputs(kinds);
  const depth = from.map(() => 0), row = from.map(() => 0);
  let rows = 0;
  from.forEach((ways, at) => {
    depth[at] = ways.length ? 1 + Math.max(...ways.map((way) => depth[way])) : 0;
    row[at] = ways.length ? ways.reduce((sum, way) => sum + row[way], 0) / ways.length : rows++;
  });
  const steps = 1 + Math.max(...depth);
  const room = Math.max(place.clientWidth, 280);
  const across = (steps * (WIDEST + BETWEEN) - BETWEEN) * SMALLEST <= room;
  const fitting = (room - 2 * EDGE - (rows - 1) * APART) / rows;
  const wide = across ? WIDEST : Math.min(WIDEST, Math.max(NARROWEST, fitting));
  const x = (at) => EDGE + (across ? depth[at] * (wide + BETWEEN) : row[at] * (wide + APART));
  const y = (at) => EDGE + (across ? row[at] * (HIGH + APART) : depth[at] * (HIGH + BETWEEN - 10));
  const width = Math.max(...from.map((_, at) => x(at))) + wide + EDGE;
  const height = Math.max(...from.map((_, at) => y(at))) + HIGH + EDGE;
  const svg = drawn("svg", {
    width, height, viewBox: `0 0 ${width} ${height}`, role: "img",
    "aria-label": operators.map(([kind, slope], at) => `${at} ${kind} ${slope}`).join(", "),
  });
  from.forEach((ways, at) => {
    for (const way of ways) svg.append(...edge(x, y, wide, across, way, at));
  });
  operators.forEach(([kind, slope], at) => {
    const first = slopes[at] === most;
    const group = drawn("g", {
      class: first ? "operator first" : "operator", transform: `translate(${x(at)} ${y(at)})`,
    });
    group.append(
      drawn("rect", { class: "node", width: wide, height: HIGH, rx: 9 }),
      drawn("text", { class: "kind", x: 12, y: 22 }, kind),
      drawn("text", { class: "place", x: wide - 12, y: 22, "text-anchor": "end" }, String(at)),
      drawn("text", { class: "slope", x: 12, y: 40 }, slope),
      drawn("rect", { class: "track", x: 12, y: 48, width: wide - 24, height: 4, rx: 2 }),
      drawn("rect", {
        class: "level", x: 12, y: 48, height: 4, rx: 2,
        width: Math.max(slopes[at] > 0 ? 3 : 0, (wide - 24) * slopes[at] / most),
      }),
      drawn("title", {}, `operator ${at}, ${kind}: slope ${slope}`),
    );
    svg.append(group);
  });
  place.append(svg);
}

function edge(x, y, wide, across, from, to) {
  const [x0, y0] = across ? [x(from) + wide, y(from) + HIGH / 2]
    : [x(from) + wide / 2, y(from) + HIGH];
  const [x1, y1] = across ? [x(to) - 5, y(to) + HIGH / 2] : [x(to) + wide / 2, y(to) - 5];
  const [mx, my] = [(x0 + x1) / 2, (y0 + y1) / 2];
  const path = across ? `M${x0} ${y0}C${mx} ${y0} ${mx} ${y1} ${x1} ${y1}`
    : `M${x0} ${y0}C${x0} ${my} ${x1} ${my} ${x1} ${y1}`;
  const head = across ? `M${x1 - 3} ${y1 - 4}L${x1 + 5} ${y1}L${x1 - 3} ${y1 + 4}Z`
    : `M${x1 - 4} ${y1 - 3}L${x1} ${y1 + 5}L${x1 + 4} ${y1 - 3}Z`;
  return [drawn("path", { class: "edge", d: path }), drawn("path", { class: "tip-end", d: head })];
}
