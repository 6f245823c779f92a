"use strict";
// A run drawn on a canvas: the processor, the engine, and a row for each task with every release from its time to its completion. What is shown is
// found by halving in lists that rise by time, so that a long run stays fluent; what is narrower than a pixel is drawn one pixel wide.
const run = JSON.parse(document.getElementById("data").textContent);
const canvas = document.getElementById("canvas"), pen = canvas.getContext("2d");
const hover = document.getElementById("hover"), pinned = document.getElementById("pinned"), said = document.getElementById("said");
const LEFT = 150, AXIS = 34, LEAST_ROW = 30, UNIT_ROW = 34, MOST_SCALE = 200;
const PHASES = ["waiting", "ready", "copy-in cancelled", "copy-in thrown out", "copy thrown out", "copy-in", "copied in", "copy-in by the processor", "execution", "executed", "copy-out"];
const [WAITING, READY, CANCELLED, THROWN_OUT, LYING, COPY_IN, LOADED, OWN_COPY_IN, EXECUTION, EXECUTED, COPY_OUT] = PHASES.keys();
const SKIPPED = -1, RED = "#b00020";

// The lives of each task and the bars of each unit, by time; a life is {task, release, end, phases, why, skipped, reach}. A release that was skipped
// ends at once, before the one that waits: `reach`, the latest end in its row so far, rises all the same, so that it can be halved by.
const tasks = run.tasks;
const rowOf = new Map(tasks.map((task, at) => [task.number, at]));
const rows = tasks.map(() => []), units = [[], []];
const lives = run.lives.map(([task, release, end, phases, why]) => ({ task, release, end, phases, why, skipped: end === SKIPPED }));
for (const life of lives) {
    const row = rows[rowOf.get(life.task)];
    if (life.skipped) life.end = life.release;
    life.reach = Math.max(life.end, row.length ? row[row.length - 1].reach : 0);
    row.push(life);
    for (const [kind, begin, end] of life.phases) {
        if (kind === OWN_COPY_IN || kind === EXECUTION) units[0].push({ kind, begin, end, life });
        if (kind === COPY_IN || kind === CANCELLED || kind === THROWN_OUT || kind === COPY_OUT) units[1].push({ kind, begin, end, life });
    }
}
for (const bars of units) bars.sort((one, other) => one.begin - other.begin);
const first = lives.length ? lives[0].release : 0;
const last = lives.reduce((most, life) => Math.max(most, life.end), first + 1);

// What is seen: the tick at the left edge, pixels for each tick, and how far the rows are moved up.
const view = { from: first, scale: 1, down: 0, chosen: null };
let width = 0, height = 0, waits = false;

const x = tick => LEFT + (tick - view.from) * view.scale;
const tickAt = place => view.from + (place - LEFT) / view.scale;
const seen = () => (width - LEFT) / view.scale;
const rowHeight = () => Math.max(LEAST_ROW, (height - AXIS - 2 * UNIT_ROW) / Math.max(1, rows.length) | 0);
const rowTop = at => AXIS + 2 * UNIT_ROW + at * Math.min(64, rowHeight()) - view.down;
const rowSize = () => Math.min(64, rowHeight());

// The first place of a list, rising by a number, at which that is at least so much.
function place(list, of, least) {
    let low = 0, high = list.length;
    while (low < high) {
        const middle = (low + high) >> 1;
        if (of(list[middle]) < least) low = middle + 1; else high = middle;
    }
    return low;
}

function keepInside() {
    const least = (width - LEFT) / (last - first + 1) * 0.9;
    view.scale = Math.min(MOST_SCALE, Math.max(Math.min(least, 40), view.scale));
    const margin = seen() * 0.5;
    view.from = Math.min(Math.max(view.from, first - margin), last - seen() + margin);
    if (seen() > last - first) view.from = Math.max(Math.min(view.from, first), last - seen());
    const room = height - AXIS - 2 * UNIT_ROW; // a row that is chosen can come up from behind what is told of it
    view.down = Math.min(Math.max(0, view.down), Math.max(0, rows.length * rowSize() - room * (view.chosen ? 0.2 : 1)));
}

// Shapes.

function hatched(colour, lean) {
    const tile = document.createElement("canvas");
    tile.width = tile.height = 6;
    const own = tile.getContext("2d");
    own.strokeStyle = colour;
    own.lineWidth = 1.3;
    own.beginPath();
    for (const at of [-6, 0, 6]) { own.moveTo(at, lean ? 0 : 6); own.lineTo(at + 6, lean ? 6 : 0); }
    own.stroke();
    return pen.createPattern(tile, "repeat");
}
const LOSS = hatched(RED, true), LOSS_TOO = hatched(RED, false), READY_HATCH = hatched("#9a9a9a", false);

// A phase of a job: height and fill tell it apart from the others.
function bar(to, kind, task, left, right, top, size) {
    const wide = Math.max(1, right - left), colours = task.colours;
    const box = (fill, from, tall) => { to.fillStyle = fill; to.fillRect(left, top + from * size, wide, Math.max(1, tall * size)); };
    const edge = (colour, from, tall, dash) => {
        if (wide < 3) return;
        to.strokeStyle = colour;
        to.lineWidth = 1;
        to.setLineDash(dash || []);
        to.strokeRect(left + 0.5, top + from * size + 0.5, wide - 1, tall * size - 1);
        to.setLineDash([]);
    };
    if (kind === WAITING) { box("#fff", 0, 1); edge(colours[2], 0, 1, [1, 2]); if (wide < 3) box(colours[2], 0, 1); }
    else if (kind === READY) { box(READY_HATCH, 0.35, 0.3); if (wide < 3) box("#9a9a9a", 0.35, 0.3); }
    else if (kind === EXECUTION) { box(colours[0], 0, 1); edge(colours[2], 0, 1); }
    else if (kind === COPY_IN || kind === OWN_COPY_IN) { box(colours[1], 0.12, 0.76); edge(colours[2], 0.12, 0.76); }
    else if (kind === COPY_OUT) { box(colours[1], 0.12, 0.76); edge(colours[2], 0.12, 0.76, [4, 2]); }
    else if (kind === CANCELLED || kind === THROWN_OUT) { // hatched; one that was thrown out both ways
        box(colours[1], 0.12, 0.76);
        box(LOSS, 0.12, 0.76);
        if (kind === THROWN_OUT) box(LOSS_TOO, 0.12, 0.76);
        edge(RED, 0.12, 0.76);
        if (wide < 3) box(RED, 0.12, 0.76);
    }
    else if (kind === LYING) box(RED, 0.44, 0.12);
    else box(colours[2], 0.46, 0.08), wide < 3 && box(colours[2], 0.4, 0.2); // copied in, executed: until the interval's end
}

function label(text, left, right, y) {
    const from = Math.max(left, LEFT) + 3, room = Math.min(right, width) - from - 3;
    if (room > 7 * text.length) { pen.fillStyle = "#1a1a1a"; pen.fillText(text, from, y); }
}

const SHORT = { [COPY_IN]: "in", [OWN_COPY_IN]: "in", [CANCELLED]: "in", [THROWN_OUT]: "in", [EXECUTION]: "run", [COPY_OUT]: "out" };

// Rows.

function drawIntervals(bottom) {
    const list = run.intervals;
    let before = -1;
    for (let at = place(list, each => each[1], view.from); at < list.length && list[at][0] <= tickAt(width); at++) {
        const [begin, end, half] = list[at], left = x(begin), right = x(end);
        if (Math.round(right) === before) continue;
        before = Math.round(right);
        pen.fillStyle = half ? "#fbf0dc" : "#e6effb";
        pen.fillRect(left, AXIS, right - left, UNIT_ROW);
        pen.fillStyle = half ? "#e6effb" : "#fbf0dc";
        pen.fillRect(left, AXIS + UNIT_ROW, right - left, UNIT_ROW);
        if (right - left > 3) { pen.fillStyle = "#dcdcdc"; pen.fillRect(left, AXIS, 1, bottom - AXIS); }
    }
}

function drawUnit(bars, top) {
    let edge = -1;
    for (let at = place(bars, each => each.end, view.from); at < bars.length && bars[at].begin <= tickAt(width); at++) {
        const each = bars[at], left = x(each.begin), right = x(each.end);
        if (right - left < 1 && Math.floor(left) === edge) continue;
        edge = Math.floor(left);
        bar(pen, each.kind, tasks[rowOf.get(each.life.task)], left, right, top + 5, UNIT_ROW - 10);
        label(`${SHORT[each.kind]} ${each.life.task}`, left, right, top + UNIT_ROW / 2 + 4);
    }
}

function promoted(left, top) {
    pen.fillStyle = RED;
    pen.beginPath();
    pen.moveTo(left - 4, top);
    pen.lineTo(left + 4, top);
    pen.lineTo(left, top - 7);
    pen.fill();
}

function drawLife(life, task, top, size) {
    const own = top + size * 0.22, tall = size * 0.5, below = top + size * 0.78, thin = size * 0.16;
    for (const [kind, begin, end] of life.phases) {
        if (end < view.from || begin > tickAt(width)) continue;
        if (kind === WAITING) bar(pen, kind, task, x(begin), x(end), below, thin);
        else {
            bar(pen, kind, task, x(begin), x(end), own, tall);
            if (kind === OWN_COPY_IN) promoted(x(begin), own);
            if (SHORT[kind]) label(`${SHORT[kind]} ${life.task}`, x(begin), x(end), own + tall / 2 + 4);
        }
    }
    if (view.chosen === life) {
        pen.strokeStyle = "#1a1a1a";
        pen.lineWidth = 2;
        pen.strokeRect(x(life.release) - 2, top + 2, Math.max(4, x(life.end) - x(life.release) + 4), size - 4);
    }
}

function drawMarks(life, top, size) {
    const left = x(life.release);
    pen.strokeStyle = life.skipped ? RED : "#1a1a1a";
    pen.lineWidth = life.skipped ? 1.5 : 1;
    pen.beginPath();
    pen.moveTo(left, top + 1);
    pen.lineTo(left, top + size * 0.2);
    if (life.skipped) { // a cross where releases wait
        const y = top + size * 0.86;
        pen.moveTo(left - 4, y - 4);
        pen.lineTo(left + 4, y + 4);
        pen.moveTo(left + 4, y - 4);
        pen.lineTo(left - 4, y + 4);
    }
    pen.stroke();
    if (!life.skipped) {
        pen.fillStyle = "#1b6e3c";
        pen.beginPath();
        pen.arc(x(life.end), top + size * 0.47, 2.5, 0, 7);
        pen.fill();
    }
}

function drawRow(at, top, size) {
    const list = rows[at], task = tasks[at];
    let edge = -1, cross = -9;
    for (let i = place(list, each => each.reach, view.from - 4 / view.scale); i < list.length && list[i].release <= tickAt(width); i++) {
        const life = list[i], left = x(life.release), right = x(life.end);
        if (life.skipped && left - cross < 5 && view.chosen !== life) continue; // as good as the one before it
        if (life.skipped) cross = left;
        if (right - left < 3 && !life.skipped && view.chosen !== life) { // too small for its phases
            if (Math.floor(right) !== edge) { pen.fillStyle = task.colours[0]; pen.fillRect(left, top + size * 0.22, Math.max(1, right - left), size * 0.5); }
            edge = Math.floor(right);
            continue;
        }
        drawLife(life, task, top, size);
        if (view.scale * 40 > 20 || life.skipped) drawMarks(life, top, size);
    }
}

function drawNames(size) {
    pen.fillStyle = "#fff";
    pen.fillRect(0, 0, LEFT, height);
    for (let at = 0; at < rows.length; at++) {
        const top = rowTop(at), task = tasks[at];
        if (top > height || top + size < AXIS + 2 * UNIT_ROW) continue;
        pen.fillStyle = task.colours[0];
        pen.fillRect(6, top + size * 0.25, 12, Math.min(14, size * 0.5));
        pen.strokeStyle = task.colours[2];
        pen.strokeRect(6.5, top + size * 0.25 + 0.5, 11, Math.min(14, size * 0.5) - 1);
        pen.fillStyle = "#1a1a1a";
        pen.font = "bold 12px sans-serif";
        pen.fillText(`task ${task.number}${task.mark ? " ◆" : ""}${task.spacing === null ? "" : `, spacing ${task.spacing}`}`, 24, top + size * 0.25 + 9);
        pen.font = "10px sans-serif";
        pen.fillText(`priority ${task.priority}, L ${task.lengths[0]} C ${task.lengths[1]} U ${task.lengths[2]}`, 24, top + size * 0.25 + 20);
    }
    pen.fillStyle = "#fff";
    pen.fillRect(0, 0, LEFT, AXIS + 2 * UNIT_ROW);
    pen.fillStyle = "#1a1a1a";
    pen.font = "bold 12px sans-serif";
    pen.fillText("processor", 6, AXIS + UNIT_ROW / 2 + 4);
    pen.fillText("engine", 6, AXIS + UNIT_ROW + UNIT_ROW / 2 + 4);
    pen.font = "11px sans-serif";
    pen.fillText("ticks", 6, AXIS - 10);
    pen.fillStyle = "#888";
    pen.fillRect(LEFT - 1, 0, 1, height);
}

function drawAxis() {
    pen.fillStyle = "#fff";
    pen.fillRect(LEFT, 0, width - LEFT, AXIS);
    const room = 9 * String(Math.ceil(tickAt(width))).length + 14;
    let step = 1;
    while (step * view.scale < room) step *= [2, 2.5, 2][String(step)[0] === "1" ? 0 : String(step)[0] === "2" ? 1 : 2];
    pen.fillStyle = "#1a1a1a";
    pen.font = "11px sans-serif";
    for (let tick = Math.ceil(view.from / step) * step; tick <= tickAt(width); tick += step) {
        if (tick < 0) continue;
        const text = String(tick), left = Math.min(x(tick) - 3 * text.length, width - 7 * text.length);
        pen.fillRect(x(tick), AXIS - 7, 1, 7);
        pen.fillText(text, Math.max(left, LEFT + 1), AXIS - 11);
    }
    pen.fillRect(LEFT, AXIS - 1, width - LEFT, 1);
}

function draw() {
    waits = false;
    keepInside();
    const size = rowSize();
    pen.setTransform(devicePixelRatio, 0, 0, devicePixelRatio, 0, 0);
    pen.fillStyle = "#fff";
    pen.fillRect(0, 0, width, height);
    pen.font = "11px sans-serif";
    drawIntervals(Math.min(height, rowTop(rows.length)));
    for (let at = 0; at < rows.length; at++) {
        const top = rowTop(at);
        if (top > height || top + size < AXIS + 2 * UNIT_ROW) continue;
        pen.fillStyle = "#e4e4e4";
        pen.fillRect(LEFT, top, width - LEFT, 1);
        drawRow(at, top, size);
    }
    if (view.down) { pen.fillStyle = "#fff"; pen.fillRect(LEFT, AXIS, width - LEFT, 2 * UNIT_ROW); drawIntervals(AXIS + 2 * UNIT_ROW); }
    drawUnit(units[0], AXIS);
    drawUnit(units[1], AXIS + UNIT_ROW);
    pen.fillStyle = "#888";
    pen.fillRect(0, AXIS + 2 * UNIT_ROW - 1, width, 1);
    drawAxis();
    drawNames(size);
}

function again() {
    if (!waits) { waits = true; requestAnimationFrame(draw); }
}

function resize() {
    const box = canvas.parentElement.getBoundingClientRect();
    [width, height] = [box.width, box.height];
    canvas.width = Math.round(width * devicePixelRatio);
    canvas.height = Math.round(height * devicePixelRatio);
    again();
}

// Moving.

function zoom(factor, at = LEFT + (width - LEFT) / 2) {
    const tick = tickAt(at);
    view.scale = Math.min(MOST_SCALE, view.scale * factor);
    keepInside();
    view.from = tick - (at - LEFT) / view.scale;
    again();
}

function showAll() {
    view.scale = (width - LEFT) / (last - first + 1) * 0.97;
    view.from = first - 0.01 * seen();
    view.down = 0;
    again();
}

function tell(text) { said.textContent = text; }

// Choose a life, and bring it into sight with room around it.
function choose(life, pin = true) {
    view.chosen = life;
    const long = Math.max(1, life.end - life.release), middle = (life.release + life.end) / 2;
    if (view.scale * long < 60 || view.scale * long > (width - LEFT) * 0.9) view.scale = Math.min(MOST_SCALE, (width - LEFT) * 0.4 / long);
    view.from = middle - seen() / 2;
    const top = rowTop(rowOf.get(life.task));
    if (top < AXIS + 2 * UNIT_ROW || top + rowSize() > height * 0.45) view.down += top - AXIS - 2 * UNIT_ROW - rowSize();
    tell(life.skipped ? `task ${life.task} at ${life.release}: skipped` : `task ${life.task} at ${life.release}: response ${life.end - life.release}`);
    if (pin) pinUp(life);
    again();
}

function pinUp(life) {
    document.getElementById("why").textContent = shortFirst(life.why);
    pinned.hidden = false;
    pinned.scrollTop = 0;
    hover.hidden = true;
}

function unpin() { pinned.hidden = true; view.chosen = null; tell(""); again(); }

function worst(list) {
    const done = list.filter(life => !life.skipped);
    if (!done.length) { tell("no job is done"); return; }
    choose(done.reduce((one, other) => other.end - other.release > one.end - one.release ? other : one));
}

// 'TICK' brings it to the middle; 'TASK TICK' chooses that task's release there, or the next one.
function search(words) {
    const numbers = (words.match(/\d+/g) || []).map(Number);
    if (numbers.length === 1 && !/task/.test(words)) {
        view.from = numbers[0] - seen() / 2;
        tell(`tick ${numbers[0]}`);
        again();
    } else if (numbers.length && rowOf.has(numbers[0])) {
        const list = rows[rowOf.get(numbers[0])], at = place(list, life => life.release, numbers[1] || 0);
        if (!list.length) tell(`task ${numbers[0]} has no release`);
        else choose(list[Math.min(at, list.length - 1)]);
    } else tell(numbers.length ? `there is no task ${numbers[0]}` : "a tick, or a task and a tick");
}

function step(by) {
    if (!view.chosen) { if (lives.length) choose(lives[0]); return; }
    const list = rows[rowOf.get(view.chosen.task)], next = list[list.indexOf(view.chosen) + by];
    if (next) choose(next);
}

const KEYS = {
    ArrowLeft: () => { view.from -= seen() * 0.15; }, ArrowRight: () => { view.from += seen() * 0.15; },
    ArrowUp: () => { view.down -= rowSize(); }, ArrowDown: () => { view.down += rowSize(); },
    "+": () => zoom(1.5), "=": () => zoom(1.5), "-": () => zoom(1 / 1.5), a: showAll, Home: () => { view.from = first - 0.01 * seen(); },
    End: () => { view.from = last - 0.98 * seen(); }, w: () => worst(lives), n: () => step(1), p: () => step(-1), Escape: unpin, "?": () => showHelp(),
    "/": () => document.getElementById("words").focus(),
};

function showHelp() {
    document.getElementById("why").textContent = "wheel or + and -: zoom; drag or the arrow keys: move; shift and wheel: rows up and down\n" +
        "a: all of the run; Home, End: its begin and end; w: the worst response; n and p: the next and the job before of a task\n" +
        "click on a job: keep what is said of it; click on a task's name: its worst response; Escape: let go\n" +
        "/ and then a tick, or a task and a tick: go there\n◆: latency-sensitive; L, C, U: lengths of copy-in, execution and copy-out in ticks; spacing: from one release to the next";
    pinned.hidden = false;
}

// What is pointed at may have a long story, of which only the front is seen: its sum comes first.
function shortFirst(why) {
    const [head, ...story] = why.split("\n\n"), sum = story.length && story[story.length - 1].startsWith("response ") ? story.pop() : "";
    return [head + "\n" + sum.trimEnd(), ...story].join("\n\n").trimEnd();
}

// The life at a place of the canvas: of several the one that is chosen, else the last that has begun; within four pixels.
function lifeAt(left, y) {
    const tick = tickAt(left), near = 4 / view.scale;
    if (left < LEFT || y < AXIS) return null;
    if (y < AXIS + 2 * UNIT_ROW) {
        const bars = units[y < AXIS + UNIT_ROW ? 0 : 1];
        const found = bars[place(bars, each => each.end, tick)];
        return found && found.begin <= tick + near ? found.life : null;
    }
    const at = Math.floor((y - AXIS - 2 * UNIT_ROW + view.down) / rowSize()), list = rows[at];
    if (!list) return null;
    const under = (y - rowTop(at)) / rowSize() > 0.74;
    const from = place(list, each => each.reach, tick - near), found = [];
    for (let i = from; i < list.length && list[i].release <= tick + near; i++) if (list[i].end >= tick - near) found.push(list[i]);
    return (under ? found[found.length - 1] : found[0]) || null;
}

let drag = null;
canvas.addEventListener("pointerdown", event => {
    drag = { x: event.offsetX, y: event.offsetY, from: view.from, down: view.down, moved: false };
    canvas.setPointerCapture(event.pointerId);
    hover.hidden = true;
});
canvas.addEventListener("pointermove", event => {
    if (drag) {
        const by = event.offsetX - drag.x, down = event.offsetY - drag.y;
        if (Math.abs(by) + Math.abs(down) > 3) drag.moved = true;
        view.from = drag.from - by / view.scale;
        view.down = drag.down - down;
        again();
        return;
    }
    const life = lifeAt(event.offsetX, event.offsetY);
    hover.hidden = !life;
    if (!life) return;
    if (hover.life !== life) { hover.textContent = shortFirst(life.why); hover.life = life; }
    const box = hover.getBoundingClientRect();
    hover.style.left = `${Math.max(4, Math.min(event.clientX + 14, innerWidth - box.width - 8))}px`;
    hover.style.top = `${event.clientY + 18 + box.height < innerHeight ? event.clientY + 18 : Math.max(4, event.clientY - box.height - 12)}px`;
});
canvas.addEventListener("pointerup", event => {
    const moved = drag && drag.moved;
    drag = null;
    if (moved) return;
    if (event.offsetX < LEFT) {
        const at = Math.floor((event.offsetY - AXIS - 2 * UNIT_ROW + view.down) / rowSize());
        if (event.offsetY > AXIS + 2 * UNIT_ROW && rows[at]) worst(rows[at]);
        return;
    }
    const life = lifeAt(event.offsetX, event.offsetY);
    if (!life) return;
    view.chosen = life;
    tell(life.skipped ? `task ${life.task} at ${life.release}: skipped` : `task ${life.task} at ${life.release}: response ${life.end - life.release}`);
    pinUp(life);
    again();
});
canvas.addEventListener("pointerleave", () => { hover.hidden = true; });
canvas.addEventListener("wheel", event => {
    event.preventDefault();
    hover.hidden = true;
    if (event.shiftKey) { view.down += event.deltaY || event.deltaX; again(); }
    else if (Math.abs(event.deltaX) > Math.abs(event.deltaY)) { view.from += event.deltaX / view.scale; again(); }
    else zoom(Math.exp(-event.deltaY * 0.0015), Math.max(LEFT, event.offsetX));
}, { passive: false });
document.addEventListener("keydown", event => {
    if (event.target.tagName === "INPUT" || event.ctrlKey || event.metaKey || event.altKey || !KEYS[event.key]) {
        if (event.key === "Escape") canvas.focus();
        return;
    }
    event.preventDefault();
    KEYS[event.key]();
    again();
});
document.getElementById("search").addEventListener("submit", event => {
    event.preventDefault();
    search(document.getElementById("words").value);
    canvas.focus();
});
for (const [id, act] of [["worst", () => worst(lives)], ["closer", () => zoom(1.5)], ["wider", () => zoom(1 / 1.5)], ["all", showAll], ["help", showHelp], ["unpin", unpin]])
    document.getElementById(id).addEventListener("click", act);

// The legend: each kind of phase, drawn as in the rows.
const grey = { colours: ["#9fb3c8", "#dfe8f0", "#3c5064"] };
for (const [kind, text] of [[WAITING, "release waits"], [READY, "ready"], [COPY_IN, "copy-in"], [LOADED, "until the interval's end"], [EXECUTION, "execution"],
    [COPY_OUT, "copy-out"], [CANCELLED, "copy-in cancelled"], [THROWN_OUT, "thrown out"]]) {
    const item = document.createElement("span"), sample = document.createElement("canvas");
    sample.width = 30;
    sample.height = 16;
    bar(sample.getContext("2d"), kind, grey, 1, 29, kind === WAITING ? 6 : 1, kind === WAITING ? 6 : 14);
    item.append(sample, text);
    document.getElementById("legend").append(item);
}
const more = document.createElement("span");
more.textContent = "▲ promoted   × skipped   ● done   ◆ latency-sensitive; behind the units: half 0 blue, half 1 yellow";
document.getElementById("legend").append(more);

window.page = { view, lives, rows, draw, seen, x, lifeAt, rowTop, rowSize };
new ResizeObserver(resize).observe(canvas.parentElement);
resize();
showAll();
if (!lives.length) tell("nothing is released");
