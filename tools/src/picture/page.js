"use strict";
const part = (id) => document.getElementById(id);
const drawing = part("drawing"), frame = part("frame"), pane = part("window"), scroll = part("scroll"), told = part("told");
const LEAST = 3; // columns in view at least
const view = { from: 0, to: run.columns };

// Asking the frame for its width makes the browser lay out the page, so that is done once for each size.
let plotWidth = 0;
function measure() {
  plotWidth = Math.max(50, frame.clientWidth - run.left - run.right);
}
const columnWidth = () => plotWidth / (view.to - view.from);
const x = (column) => run.left + (column - view.from) * columnWidth();
const columnAt = (mouse) => Math.floor(view.from + (mouse.clientX - frame.getBoundingClientRect().left - run.left) / columnWidth());

// Text, which must not be stretched, is written anew for what is in view.
const escaped = (text) => text.replace(/[&<>]/g, (sign) => ({ "&": "&amp;", "<": "&lt;", ">": "&gt;" })[sign]);
const text = (at, y, kind, said) => `<text class="${kind}" text-anchor="middle" x="${at.toFixed(1)}" y="${y}">${escaped(said)}</text>`;
const slanted = (at, y, kind, said) =>
  `<text class="${kind}" text-anchor="end" transform="translate(${at.toFixed(1)} ${y}) rotate(-45)">${escaped(said)}</text>`;
const spanAt = (spans, column) => {
  let low = 0, high = spans.length - 1;
  while (low < high) {
    const middle = (low + high) >> 1;
    if (spans[middle][1] <= column) low = middle + 1; else high = middle;
  }
  return low;
};

function step(width) {
  for (let tens = 1; ; tens *= 10) for (const one of [1, 2, 5]) if (width * tens * one >= run.number) return tens * one;
}

function numbers() {
  const each = step(columnWidth());
  const first = Math.max(0, Math.floor(view.from)), last = Math.min(run.columns, Math.ceil(view.to));
  let out = "";
  for (let column = first; column < last; column++) {
    const number = run.first + column;
    if (number % each === 0) out += text(x(column + .5), run.numbersY, "faint", number === 0 && each === 1 ? "start" : String(number));
  }
  return out;
}

function times() {
  let out = "", last = -Infinity;
  for (const [column, time] of run.ticks) {
    const at = x(column + .5);
    if (at > run.left + plotWidth) break;
    if (at >= run.left && at - last >= 32) { out += text(at, run.ticksY, "faint", String(time)); last = at; }
  }
  return out;
}

function runners() {
  let out = "";
  const inView = (column) => Math.min(Math.max(column, view.from), view.to);
  for (let i = spanAt(run.running, view.from); i < run.running.length && run.running[i][0] < view.to; i++) {
    const [from, to, task] = run.running[i];
    const left = x(inView(from)), right = x(inView(to)), said = task === 0 ? "none" : String(task);
    if (right - left >= 7 * said.length + 6) out += text((left + right) / 2, run.runningY, task === 0 ? "faint" : "ink", said);
  }
  return out;
}

// The codes of refused events beside their marks, as many as have room.
const refusals = run.refused.map((code, column) => [column, code]).filter(([, code]) => code);
function codes() {
  let out = "";
  refusals.forEach(([column, code], i) => {
    if (column < view.from || column >= view.to) return;
    const at = x(column + .5) + 4, next = i + 1 < refusals.length ? x(refusals[i + 1][0] + .5) : Infinity;
    if (at + 8.8 * code.length <= Math.min(next, x(view.to))) out += `<text class="alert" x="${at.toFixed(1)}" y="${run.refusedY}">${code}</text>`;
  });
  return out;
}

function words() {
  let out = "";
  for (let column = Math.max(0, Math.ceil(view.from - .5)); column < Math.min(run.columns, view.to - .4); column++) {
    const code = run.refused[column];
    if (run.first + column > 0) out += slanted(x(column + .5) + 4, run.wordsY, code ? "alert" : "ink", run.events[column] + (code ? "  " + code : ""));
  }
  return out;
}

function draw() {
  const height = run.wordsY, wordy = columnWidth() >= run.words;
  pane.setAttribute("viewBox", `${view.from} 0 ${view.to - view.from} ${height}`);
  pane.setAttribute("width", plotWidth);
  drawing.setAttribute("height", height + (wordy ? run.wordsHeight : 0));
  part("labels").innerHTML = numbers() + times() + runners() + (wordy ? words() : codes());
  scroll.firstChild.style.width = 100 * run.columns / (view.to - view.from) + "%";
  scroll.scrollLeft = view.from * columnWidth();
}

let due = false;
function redraw() {
  if (due) return;
  due = true;
  requestAnimationFrame(() => { due = false; draw(); });
}

function show(from, span) {
  span = Math.min(Math.max(span, Math.min(LEAST, run.columns)), run.columns);
  view.from = Math.min(Math.max(from, 0), run.columns - span);
  view.to = view.from + span;
  redraw();
}

// The column under `still` keeps its place.
function zoom(factor, still = (view.from + view.to) / 2) {
  const span = Math.min(Math.max((view.to - view.from) * factor, Math.min(LEAST, run.columns)), run.columns);
  show(still - (still - view.from) * span / (view.to - view.from), span);
}
const move = (columns) => show(view.from + columns, view.to - view.from);

function tell(mouse) {
  const column = columnAt(mouse), box = frame.getBoundingClientRect();
  const inside = column >= Math.floor(view.from) && column < Math.min(view.to, run.columns) && mouse.clientX - box.left >= run.left;
  if (!inside) return hush();
  const lane = run.lanes.find((lane) => mouse.clientY - box.top >= lane.top && mouse.clientY - box.top < lane.top + run.laneHeight);
  const number = run.first + column;
  const depth = run.depths[spanAt(run.depths, column)][2];
  const lines = [(number ? number + "  " : "") + run.events[column], run.answers[column]];
  if (depth) lines.push(depth === 1 ? "1 handler open" : depth + " handlers open");
  if (lane) {
    const [from, , state] = lane.states[spanAt(lane.states, column)];
    const since = from > 0 ? ` since event ${run.first + from}` : "";
    lines.push(`task ${lane.task}: ${run.names[state]}${since}`);
  }
  told.textContent = lines.join("\n");
  told.hidden = false;
  const at = mouse.clientX - box.left;
  told.style.left = Math.max(0, Math.min(at + 14, frame.clientWidth - told.offsetWidth)) + "px";
  told.style.top = mouse.clientY - box.top + 18 + "px";
  part("pointed").setAttribute("x", column);
  part("pointed").setAttribute("fill-opacity", ".1");
}

function hush() {
  told.hidden = true;
  part("pointed").setAttribute("fill-opacity", "0");
}

let held = null;
drawing.addEventListener("pointerdown", (mouse) => {
  held = { at: mouse.clientX, from: view.from };
  drawing.setPointerCapture(mouse.pointerId);
  drawing.classList.add("moving");
});
drawing.addEventListener("pointermove", (mouse) => {
  if (held) show(held.from - (mouse.clientX - held.at) / columnWidth(), view.to - view.from);
  tell(mouse);
});
const drop = () => { held = null; drawing.classList.remove("moving"); };
drawing.addEventListener("pointerup", drop);
drawing.addEventListener("pointercancel", drop);
drawing.addEventListener("pointerleave", hush);
drawing.addEventListener("dblclick", (mouse) => zoom(.5, columnAt(mouse) + .5));
drawing.addEventListener("wheel", (wheel) => {
  const across = wheel.shiftKey ? wheel.deltaY : wheel.deltaX;
  if (wheel.ctrlKey || wheel.metaKey) zoom(Math.exp(wheel.deltaY * .0025), columnAt(wheel) + .5);
  else if (across) move(across / columnWidth());
  else return;
  wheel.preventDefault();
}, { passive: false });
scroll.addEventListener("scroll", () => {
  const from = scroll.scrollLeft / columnWidth();
  if (Math.abs(from - view.from) * columnWidth() > 1.5) show(from, view.to - view.from);
});
addEventListener("keydown", (key) => {
  const quarter = (view.to - view.from) / 4;
  const acts = { "+": () => zoom(.5), "=": () => zoom(.5), "-": () => zoom(2), 0: () => show(0, run.columns),
    ArrowLeft: () => move(-quarter), ArrowRight: () => move(quarter), Home: () => move(-run.columns), End: () => move(run.columns) };
  if (key.ctrlKey || key.metaKey || key.altKey || !acts[key.key]) return;
  key.preventDefault();
  acts[key.key]();
});
part("closer").onclick = () => zoom(.5);
part("wider").onclick = () => zoom(2);
part("all").onclick = () => show(0, run.columns);
function resize() {
  measure();
  draw();
}
addEventListener("resize", resize);
addEventListener("beforeprint", resize);
resize();
