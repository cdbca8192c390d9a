"use strict";
const WEEK = 604800, DAY = 86400, HOUR = 3600, ROW = 26, STEP = 29, LEAST = 2, COLOURS = 8;
const DAYS = ["Monday", "Tuesday", "Wednesday", "Thursday", "Friday", "Saturday", "Sunday"];
const WORDS = {fault: "fault", silent: "week", less: "lost", you: "you decide"};
const base = location.pathname, by = id => document.getElementById(id);
const make = (tag, text, more = {}) => {
  const element = document.createElement(tag);
  if (text !== null) element.textContent = text;
  return Object.assign(element, more);
};
const two = number => String(Math.floor(number)).padStart(2, "0");
const clock = second => `${two(second / HOUR % 24)}:${two(second / 60 % 60)}:${two(second % 60)}`;
const moment = second => `${DAYS[Math.floor(second / DAY) % 7]} ${clock(second)}`;
const short = name => name.split("/").pop().replace(/\.(wav|m3u)$/i, "") || name;
const lasting = seconds => seconds < 60 ? `${seconds} s` : seconds < HOUR ? `${Math.round(seconds / 6) / 10} min` : `${Math.round(seconds / 360) / 10} h`;
const colour = name => getComputedStyle(document.documentElement).getPropertyValue(name).trim();
const asked = async words => (await fetch(base + words)).json();
let seen = -1, state = null, at = 4 * DAY + 20 * HOUR, chosen = 0, hour = null, calls = 0, heard = null;

/* The verdict, and the script with its marks. */

const showLine = line => {
  const rows = [...by("script").querySelectorAll(".row")], row = rows[line - 1];
  for (const each of rows) each.classList.toggle("shown", each === row);
  if (row) row.scrollIntoView({block: "nearest"});
};

const showTold = () => {
  const box = by("told"), faults = state.marks.filter(mark => mark.sort === "fault");
  box.replaceChildren();
  for (const mark of faults) {
    const told = make("div", null, {className: "told", role: "alert"});
    told.append(make("b", mark.text), mark.help.replace(/^help: /, ""));
    box.append(told);
  }
  if (state.isLive && !state.isOpen) box.append(make("div", `As it stands liq refuses it: ${state.line}`, {className: "told soft"}));
};

const showScript = () => {
  const rows = state.lines.map(pieces => {
    const row = make("div", null, {className: "row"});
    for (const piece of pieces) {
      if (typeof piece === "string") { row.append(piece); continue; }
      const mark = state.marks[piece[1]];
      row.append(make("mark", piece[0], {className: mark.sort, title: mark.text}));
    }
    return row;
  });
  const says = rows.map(() => []);
  for (const mark of state.marks) {
    const row = rows[mark.line - 1];
    if (!row) continue;
    if (!row.classList[1]) row.classList.add(mark.sort);
    const say = make("div", null, {className: `say ${mark.sort}`});
    say.append(make("b", WORDS[mark.sort]), mark.text + (mark.help ? `. ${mark.help.replace(/^help: /, "")}` : ""));
    says[mark.line - 1].push(say);
  }
  const box = by("script"), place = box.scrollTop;
  box.replaceChildren(...rows.flatMap((row, k) => [row, ...says[k]]));
  box.scrollTop = place;
  const fault = state.marks.find(mark => mark.sort === "fault");
  if (fault && rows[fault.line - 1]) rows[fault.line - 1].scrollIntoView({block: "nearest"});
};

const showVerdict = () => {
  document.title = `${state.name}: ${state.said}`;
  by("name").replaceChildren(make("bdi", state.name));
  const good = state.verdict === "taken";
  by("verdict").textContent = `${good ? "\u2713" : "\u2717"} ${state.said}${state.isOpen ? "; you decide where it says so" : ""}`;
  by("verdict").className = state.isSafe ? "good" : good ? "warn" : "bad";
  by("took").textContent = `looked at in ${state.took} s`;
  const list = state.outputs.map(([name, clockName, isSafe]) => {
    const item = make("li", null);
    item.append(make("bdi", name), `: clock ${clockName}, ${isSafe ? "always has something to play" : "may fall silent"}`);
    return item;
  });
  by("clocks").replaceChildren(...list);
  by("clocks").parentElement.hidden = list.length === 0;
  const play = by("play");
  for (const button of [play, by("track"), by("change"), by("dayon")]) button.disabled = !good;
};

const showSounds = () => {
  by("sounding").hidden = !state.sounds;
  if (!state.sounds) return;
  const told = state.sounds;
  by("sounds").textContent = `${told.used} of ${told.all} sounds are played, ${lasting(told.seconds)} in all`;
  const items = told.found.map(([line, isBad]) => make("li", line, {className: isBad ? "bad" : ""}));
  if (told.more) items.push(make("li", `and ${told.more} more`));
  by("found").replaceChildren(...items);
};

const showPicture = () => {
  const told = state.picture, image = document.querySelector("#picture img");
  by("pictured").hidden = !told || !told.address && !told.note;
  if (!told) return;
  by("note").textContent = told.note || "";
  by("picture").hidden = !told.address;
  if (!told.address) return;
  const place = () => {
    const boxes = by("boxes");
    boxes.style.left = `${image.offsetLeft}px`; boxes.style.top = `${image.offsetTop}px`;
    boxes.style.width = `${image.offsetWidth}px`; boxes.style.height = `${image.offsetHeight}px`;
  };
  image.onload = place;
  new ResizeObserver(place).observe(image);
  image.src = base + told.address;
  by("boxes").replaceChildren(...told.boxes.map(box => {
    const button = make("button", null, {type: "button", title: `source ${box.source}, line ${box.line}`, ariaLabel: `source ${box.source}, line ${box.line}`});
    for (const side of ["left", "top", "width", "height"]) button.style[side] = `${100 * box[side]}%`;
    button.onclick = () => {
      showLine(box.line);
      const number = state.week ? state.week.switches.findIndex(one => one.source === box.source) : -1;
      if (number >= 0) choose(number);
    };
    return button;
  }));
};

/* The week, and the hour. */

const theSwitch = () => state && state.week && state.week.switches[chosen] || null;
const caseColour = number => colour(`--c${number % COLOURS}`);
const isTold = one => one !== null && [...one.cases, one.none].every(each => each.spans);

const hatch = (context, first, second, size) => {
  const tile = document.createElement("canvas");
  tile.width = tile.height = size;
  const pen = tile.getContext("2d");
  pen.fillStyle = second; pen.fillRect(0, 0, size, size);
  pen.strokeStyle = first; pen.lineWidth = size / 4;
  for (const shift of [-size, 0, size]) { pen.beginPath(); pen.moveTo(shift, size); pen.lineTo(shift + size, 0); pen.stroke(); }
  return context.createPattern(tile, "repeat");
};

const canvasOf = (box, high) => {
  const canvas = box.querySelector("canvas"), wide = box.clientWidth, ratio = devicePixelRatio || 1;
  canvas.width = Math.round(wide * ratio); canvas.height = Math.round(high * ratio); canvas.style.height = `${high}px`;
  const context = canvas.getContext("2d");
  context.scale(ratio, ratio);
  return [context, wide];
};

/* The spans of seconds between low and high, each with its case; short ones last, so that a hair line is seen. */
const partsOf = (one, low, high) => {
  const parts = [];
  [...one.cases, one.none].forEach((each, k) => {
    for (const [first, end] of each.spans || []) {
      const from = Math.max(first, low), to = Math.min(end, high);
      if (from < to) parts.push([from, to, k]);
    }
  });
  return parts.sort((a, b) => (b[1] - b[0]) - (a[1] - a[0]));
};

/* The stretches that get a name: spans of one case with short ones of others between, if it has most of the time. */
const named = (parts, near) => {
  const found = [], last = new Map();
  for (const [from, to, k] of [...parts].sort((a, b) => a[0] - b[0])) {
    const one = last.get(k);
    if (one && from - one.to <= near) { one.to = to; one.filled += to - from; continue; }
    last.set(k, {from, to, k, filled: to - from});
    found.push(last.get(k));
  }
  return found.filter(one => 2 * one.filled > one.to - one.from);
};

const drawSpans = (context, wide, top, low, high, one) => {
  const parts = partsOf(one, low, high), scale = wide / (high - low), none = one.cases.length;
  const red = hatch(context, colour("--hole"), colour("--paper"), 8), fill = k => k === none ? red : caseColour(k);
  for (const [from, to, k] of parts) {
    context.fillStyle = fill(k);
    context.fillRect((from - low) * scale, top, Math.max(LEAST, (to - from) * scale), ROW);
  }
  if (parts.length > 400) return;
  for (const {from, to, k} of named(parts, (high - low) / 48)) {
    const x = (from - low) * scale, width = (to - from) * scale, name = k === none ? "no case holds" : short(one.cases[k].name);
    const size = context.measureText(name).width + 8;
    if (width < size + 4) continue;
    context.fillStyle = k === none ? colour("--paper") : fill(k);
    context.fillRect(x + 3, top + 5, size, ROW - 10);
    context.fillStyle = colour(k === none ? "--ink" : "--on");
    context.fillText(name, x + 7, top + ROW / 2);
  }
};

const prepared = (context, wide, high) => {
  context.clearRect(0, 0, wide, high);
  context.font = "12px system-ui, 'DejaVu Sans', sans-serif";
  context.textBaseline = "middle";
  context.textAlign = "left";
};

/* What stands for more changes than are drawn: the case with most of the time, and the next one. */
const mixed = (context, one) => {
  const [first, second] = one.cases.map((each, k) => [each.count * each.longest, k]).sort((a, b) => b[0] - a[0]).map(each => each[1]);
  return hatch(context, second === undefined ? colour("--faint") : caseColour(second), caseColour(first), 12);
};

const drawWeek = () => {
  const box = by("calendar"), high = 7 * STEP + 14, [context, wide] = canvasOf(box, high);
  prepared(context, wide, high);
  const one = theSwitch(), all = {cases: [{spans: [[0, WEEK]], name: "the same all week"}], none: {spans: []}};
  for (let day = 0; day < 7; day++) {
    const top = day * STEP, low = day * DAY;
    context.fillStyle = colour("--faint"); context.fillRect(0, top, wide, ROW);
    if (one && !isTold(one)) { context.fillStyle = mixed(context, one); context.fillRect(0, top, wide, ROW); }
    drawSpans(context, wide, top, low, low + DAY, one || all);
  }
  context.fillStyle = colour("--soft"); context.font = "11px system-ui, 'DejaVu Sans', sans-serif";
  for (const mark of [0, 3, 6, 9, 12, 15, 18, 21, 24]) {
    context.textAlign = mark === 0 ? "left" : mark === 24 ? "right" : "center";
    context.fillText(two(mark), wide * mark / 24, 7 * STEP + 6);
  }
  const x = at % DAY / DAY * wide, top = Math.floor(at / DAY) * STEP;
  context.fillStyle = colour("--ink"); context.fillRect(x - 1, top - 2, 3, ROW + 4);
  box.setAttribute("aria-valuenow", at);
  box.setAttribute("aria-valuetext", `${moment(at)}: ${holds(at)}`);
};

const holds = second => {
  const one = theSwitch();
  if (!one) return "the same all week";
  const within = each => (each.spans || []).some(([first, end]) => first <= second && second < end);
  const found = one.cases.find(within);
  if (found) return found.name;
  return within(one.none) ? "no case holds" : isTold(one) ? "" : "too many changes to show here: see the hour";
};

const drawHour = () => {
  const box = by("hour"), one = theSwitch();
  box.hidden = by("hourname").hidden = !one || !hour;
  if (box.hidden) return;
  const [context, wide] = canvasOf(box, ROW + 14), first = hour.first;
  prepared(context, wide, ROW + 14);
  by("hourname").textContent = `The hour from ${moment(first)}`;
  drawSpans(context, wide, 0, first, first + HOUR, {cases: one.cases.map((each, k) => ({spans: hour.cases[k], name: each.name})), none: {spans: hour.none}});
  context.fillStyle = colour("--soft"); context.font = "11px system-ui, 'DejaVu Sans', sans-serif";
  for (const mark of [0, 10, 20, 30, 40, 50, 60]) {
    context.textAlign = mark === 0 ? "left" : mark === 60 ? "right" : "center";
    context.fillText(`:${two(mark)}`, wide * mark / 60, ROW + 7);
  }
  context.fillStyle = colour("--ink"); context.fillRect((at - first) / HOUR * wide - 1, 0, 3, ROW);
};

const askHour = async () => {
  const one = theSwitch(), number = state.number;
  hour = null;
  if (one) {
    const told = await asked(`hour?at=${at}&switch=${chosen}`).catch(() => ({error: ""}));
    if (number !== state.number || told.error !== undefined) return;
    hour = told;
  }
  drawHour();
};

const legend = () => {
  const one = theSwitch(), items = [];
  const add = (name, look, count, more) => {
    const item = make("span", null), chip = make("i", null, {className: look === null ? "none" : ""});
    if (look !== null) chip.style.background = look;
    item.append(chip, make("bdi", name), count === null ? "" : ` ${count === 0 ? "never" : `${count} ${count === 1 ? "time" : "times"} a week`}${more}`);
    items.push(item);
  };
  if (one) {
    one.cases.forEach((each, k) => add(each.name, caseColour(k), each.count, each.count === 0 ? "" : each.shortest === each.longest ? `, ${lasting(each.longest)}` : `, ${lasting(each.shortest)} to ${lasting(each.longest)}`));
    if (one.none.count) add("no case holds", null, one.none.count, "");
    if (!isTold(one)) items.push(make("span", "too many changes to draw a week of them: the hour below shows each"));
  }
  by("legend").replaceChildren(...items);
  const switches = state.week ? state.week.switches : [];
  document.querySelector(".choice").hidden = switches.length < 2;
  by("switch").replaceChildren(...switches.map((each, k) => make("option", `${each.source}, line ${each.line}`, {value: k, selected: k === chosen})));
  const holes = state.marks.filter(mark => mark.sort === "silent").map(mark => make("li", `line ${mark.line}: ${mark.text}`));
  if (state.sum) holes.push(make("li", state.sum));
  by("holes").replaceChildren(...holes);
};

const showWeek = () => {
  by("weekly").hidden = !state.week;
  if (!state.week) return;
  if (chosen >= state.week.switches.length) chosen = 0;
  legend(); drawWeek(); askHour();
};

const choose = number => { chosen = number; showWeek(); };

const go = second => {
  at = (Math.floor(second) % WEEK + WEEK) % WEEK;
  by("day").value = Math.floor(at / DAY);
  by("clock").value = clock(at);
  if (state && state.week) { drawWeek(); if (!hour || at < hour.first || at >= hour.first + HOUR) askHour(); else drawHour(); }
};

/* Listening. */

const strip = (output, first, audio) => {
  const box = make("div", null, {className: "strip"}), seconds = output.seconds || 1, names = [...new Set(output.tracks.map(track => track.name))];
  output.tracks.forEach((track, k) => {
    const end = k + 1 < output.tracks.length ? output.tracks[k + 1].at : seconds;
    const block = make("i", null, {title: `${moment(first + track.at)} ${track.name || "no file"}`});
    block.style.left = `${100 * track.at / seconds}%`; block.style.width = `${100 * (end - track.at) / seconds}%`;
    block.style.background = `var(--c${names.indexOf(track.name) % COLOURS})`;
    block.append(make("b", short(track.name) || "no file"));
    box.append(block);
  });
  const picture = document.createElementNS("http://www.w3.org/2000/svg", "svg"), path = document.createElementNS("http://www.w3.org/2000/svg", "path");
  picture.setAttribute("viewBox", `0 0 ${output.levels.length || 1} 100`); picture.setAttribute("preserveAspectRatio", "none");
  path.setAttribute("d", output.levels.map((level, x) => `M${x} 100V${100 - level}h1V100z`).join(""));
  picture.append(path);
  const mark = make("s", null);
  audio.addEventListener("timeupdate", () => { mark.style.left = `${100 * audio.currentTime / seconds}%`; });
  box.addEventListener("click", event => {
    const frame = box.getBoundingClientRect();
    audio.currentTime = (event.clientX - frame.left) / frame.width * seconds;
    audio.play().catch(() => {});
  });
  box.append(picture, mark);
  return box;
};

const showHeard = (told, took) => {
  heard = told;
  const blocks = told.outputs.map((output, k) => {
    const box = make("div", null, {className: "output"}), head = make("h3", null), audio = make("audio", null, {controls: true, preload: "auto", src: base + output.address});
    head.append(make("bdi", output.name));
    if (output.gaps) head.append(" ", make("span", `${output.gaps.toFixed(1)} s with nothing to play`, {className: "gap"}));
    audio.setAttribute("aria-label", output.name);
    box.append(head, strip(output, told.at, audio), audio);
    if (k === 0) audio.play().catch(() => {});
    return box;
  });
  by("outputs").replaceChildren(...blocks);
  by("heard").textContent = [`${moment(told.at)}, rendered in ${(took / 1000).toFixed(2)} s`, ...told.told].join("; ");
};

const hear = async second => {
  go(second);
  const call = ++calls, began = performance.now(), long = by("long").value;
  for (const audio of document.querySelectorAll("audio")) audio.pause();
  by("heard").textContent = `${moment(at)}: rendering \u2026`;
  const told = await asked(`hear?at=${at}&for=${long}`).catch(() => ({error: "liq-try has ended"}));
  if (call !== calls) return;
  if (told.ended) { by("heard").textContent = "ended by a later call of another page"; return; }
  if (told.error !== undefined) { by("heard").textContent = told.error; by("outputs").replaceChildren(); return; }
  showHeard(told, performance.now() - began);
};

const nextTrack = () => {
  const audio = document.querySelector("audio"), output = heard && heard.outputs[0];
  if (!output || !audio) { by("heard").textContent = "play a moment first"; return; }
  const next = output.tracks.find(track => track.at > audio.currentTime + 0.05);
  if (next) { audio.currentTime = next.at; audio.play().catch(() => {}); go(heard.at + next.at); } else hear(heard.at + Math.floor(output.seconds));
};

const nextChange = async () => {
  const told = theSwitch() ? await asked(`hour?at=${at}&switch=${chosen}`).catch(() => ({})) : {};
  if (told.next === undefined || told.next === null) { by("heard").textContent = "there is no change to come"; return; }
  hear(told.next);
};

/* What is done by hand. */

const secondAt = event => {
  const frame = by("calendar").getBoundingClientRect();
  const day = Math.min(6, Math.max(0, Math.floor((event.clientY - frame.top) / STEP)));
  const share = Math.min(1, Math.max(0, (event.clientX - frame.left) / frame.width));
  return day * DAY + Math.min(DAY - 1, Math.round(share * 288) * 300);
};
const STEPS = {ArrowRight: 300, ArrowLeft: -300, ArrowDown: DAY, ArrowUp: -DAY, PageDown: HOUR, PageUp: -HOUR};

const listen = () => {
  DAYS.forEach((day, k) => { by("day").append(make("option", day, {value: k})); by("days").append(make("div", day.slice(0, 3))); });
  by("day").value = 4;
  const calendar = by("calendar");
  calendar.addEventListener("click", event => hear(secondAt(event)));
  calendar.addEventListener("mousemove", event => { const second = secondAt(event); by("under").textContent = `${moment(second)}: ${holds(second)}`; });
  calendar.addEventListener("mouseleave", () => { by("under").textContent = ""; });
  calendar.addEventListener("keydown", event => {
    if (event.key === "Enter" || event.key === " ") { event.preventDefault(); hear(at); return; }
    const day = Math.floor(at / DAY) * DAY, to = event.key === "Home" ? day : event.key === "End" ? day + DAY - 1 : event.key in STEPS ? at + STEPS[event.key] : null;
    if (to === null) return;
    event.preventDefault();
    go(to);
    by("under").textContent = `${moment(at)}: ${holds(at)}`;
  });
  by("hour").addEventListener("click", event => {
    const frame = by("hour").getBoundingClientRect();
    if (hour) hear(hour.first + Math.min(HOUR - 1, Math.floor((event.clientX - frame.left) / frame.width * HOUR)));
  });
  by("switch").addEventListener("change", event => choose(+event.target.value));
  by("when").addEventListener("submit", event => {
    event.preventDefault();
    const [hours, minutes, seconds = 0] = by("clock").value.split(":").map(Number);
    hear(+by("day").value * DAY + hours * HOUR + minutes * 60 + seconds);
  });
  by("track").addEventListener("click", nextTrack);
  by("change").addEventListener("click", nextChange);
  by("dayon").addEventListener("click", () => hear(at + DAY));
  addEventListener("resize", () => { if (state && state.week) { drawWeek(); drawHour(); } });
  matchMedia("(prefers-color-scheme: dark)").addEventListener("change", () => { if (state && state.week) { drawWeek(); drawHour(); } });
};

const show = told => {
  const before = state;
  state = told;
  showVerdict(); showTold(); showSounds(); showPicture();
  const same = (name) => before !== null && JSON.stringify(before[name]) === JSON.stringify(state[name]);
  if (!same("lines") || !same("marks")) showScript();
  showWeek();
};

const follow = async () => {
  for (;;) {
    try {
      const told = await asked(`state?seen=${seen}`);
      if (told.number !== undefined && told.number !== seen) { seen = told.number; show(told); }
    } catch (error) {
      by("took").textContent = "liq-try has ended";
      await new Promise(done => setTimeout(done, 2000));
    }
  }
};

listen();
follow();
