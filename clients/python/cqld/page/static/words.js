// How numbers, instants and lags are written, and small makers of elements.

const GROUPED = new Intl.NumberFormat("en", { maximumFractionDigits: 6 });
const SHORT = new Intl.NumberFormat("en", { notation: "compact", maximumFractionDigits: 2 });
const SVG = "http://www.w3.org/2000/svg";

/** Writes a number with groups of three digits. */
export const number = (value) => GROUPED.format(value);

/** Writes a number for an axis. */
export const short = (value) => (Math.abs(value) < 100000 ? GROUPED : SHORT).format(value);

/** Writes an instant: as a time of UTC where it has a clock, else as a number. */
export function instant(value, clock) {
  if (value === null || value === undefined) return "none";
  if (!clock) return number(value);
  const date = new Date((clock.start + value * clock.unit) * 1000);
  if (Number.isNaN(date.getTime())) return number(value);
  const text = date.toISOString();
  if (clock.unit % 86400 === 0) return text.slice(0, 10);
  const until = clock.unit % 60 === 0 ? 16 : clock.unit < 1 ? 23 : 19;
  return text.slice(0, until).replace("T", " ");
}

/** Writes the time of an instant for an axis, with its day only where that is asked for. */
export function time(value, clock, whole) {
  const text = instant(value, clock);
  return clock && clock.unit % 86400 !== 0 && !whole ? text.slice(11) : text;
}

/** Writes seconds as the two greatest of days, hours, minutes and seconds. */
export function span(seconds) {
  const minutes = Math.floor(seconds / 60), hours = Math.floor(minutes / 60);
  if (minutes < 1) return `${seconds} s`;
  if (hours < 1) return `${minutes} min ${seconds % 60} s`;
  if (hours < 24) return `${hours} h ${minutes % 60} min`;
  return `${Math.floor(hours / 24)} d ${hours % 24} h`;
}

/** Counts things: "1 answer", "2 answers". */
export const count = (n, one) => `${number(n)} ${n === 1 ? one : `${one}s`}`;

/** Makes an element with a class and, as text alone, its words. */
export function element(name, className, words) {
  const made = document.createElement(name);
  if (className) made.className = className;
  if (words !== undefined) made.textContent = words;
  return made;
}

/** Makes an element of SVG with attributes and, as text alone, its words. */
export function drawn(name, attributes, words) {
  const made = document.createElementNS(SVG, name);
  for (const [key, value] of Object.entries(attributes)) made.setAttribute(key, value);
  if (words !== undefined) made.textContent = words;
  return made;
}
