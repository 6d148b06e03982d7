"""The page of `hhmc metrics`: one text for a browser, with its own script and styles, which loads nothing else.

It asks `stats.json` once a second and draws what is told. Behind each picture stands a table with the same numbers.
"""

PAGE = r"""<!doctype html>
<html lang="en">
<head>
<meta charset="utf-8">
<meta name="viewport" content="width=device-width, initial-scale=1">
<meta name="color-scheme" content="light dark">
<title>hhm</title>
<link rel="icon" href="data:,">
<style>
:root { --ground: #ffffff; --panel: #f6f7f9; --ink: #1b1f24; --quiet: #57606a; --faint: #d4d8dd; --first: #0062ad;
  --second: #b8460b; --bar: #a9cbe6; --bad: #a40e26; --bad-ground: #ffebe9; }
@media (prefers-color-scheme: dark) {
  :root { --ground: #14171c; --panel: #1c2128; --ink: #e6e9ed; --quiet: #a2abb5; --faint: #3a4048; --first: #6cb6ff;
    --second: #ff9d5c; --bar: #24537c; --bad: #ffb3ad; --bad-ground: #4a1515; } }
* { box-sizing: border-box; }
body { margin: 0 auto; max-width: 88rem; padding: 1rem; background: var(--ground); color: var(--ink);
  font: 15px/1.45 system-ui, -apple-system, "DejaVu Sans", sans-serif; }
h1 { font-size: 1.25rem; margin: 0; overflow-wrap: anywhere; }
h2 { font-size: 1rem; margin: 0 0 .4rem; }
p { margin: .3rem 0; }
.quiet, caption, th { color: var(--quiet); }
#state { padding: .4rem .6rem; border-radius: .3rem; background: var(--panel); }
#state.bad { background: var(--bad-ground); color: var(--bad); font-weight: 600; }
main.stale { opacity: .55; }
.tiles { display: grid; grid-template-columns: repeat(auto-fill, minmax(9.5rem, 1fr)); gap: .6rem; margin: .8rem 0; }
.tiles div { background: var(--panel); border-radius: .3rem; padding: .5rem .6rem; }
.tiles dt { color: var(--quiet); font-size: .85rem; }
.tiles dd { margin: 0; font-size: 1.2rem; font-variant-numeric: tabular-nums; overflow-wrap: anywhere; }
.tiles .bad { background: var(--bad-ground); color: var(--bad); }
.tiles .bad dt, .tiles .bad dd small { color: inherit; }
.tiles dd small { display: block; font-size: .8rem; color: var(--quiet); }
.parts { display: grid; grid-template-columns: repeat(auto-fit, minmax(min(100%, 25rem), 1fr)); gap: .8rem; }
section { background: var(--panel); border-radius: .3rem; padding: .7rem .8rem; min-width: 0; margin: 0; }
section.wide { grid-column: 1 / -1; }
svg { display: block; width: 100%; font-size: 12px; }
svg text { fill: var(--quiet); }
.grid { stroke: var(--faint); } .axis { stroke: var(--quiet); }
.line { fill: none; stroke-width: 1.8; stroke-linejoin: round; }
.first { stroke: var(--first); } .second { stroke: var(--second); }
.mark { fill: var(--first); stroke: var(--panel); stroke-width: 1.5; }
.key { display: inline-block; width: .8rem; height: .2rem; vertical-align: middle; margin-right: .3rem; }
.scroll { overflow-x: auto; }
table { border-collapse: collapse; font-variant-numeric: tabular-nums; width: 100%; }
caption { text-align: left; font-size: .85rem; }
th, td { text-align: right; padding: .12rem .5rem; border-bottom: 1px solid var(--faint); white-space: nowrap; }
th:first-child, td:first-child { text-align: left; }
th { font-weight: 500; font-size: .85rem; }
#top td:first-child { white-space: normal; overflow-wrap: anywhere; }
td.barred { background: linear-gradient(var(--bar), var(--bar)) left / var(--part) 100% no-repeat; }
details { margin-top: .4rem; } summary { cursor: pointer; color: var(--quiet); font-size: .85rem; }
label { font-size: .9rem; }
@media (max-width: 30rem) {
  #top { order: -1; }
  th, td { padding: .12rem .3rem; font-size: .85rem; }
  td:first-child { white-space: normal; overflow-wrap: anywhere; } }
</style>
</head>
<body>
<header>
<h1>hhm <span id="place"></span></h1>
<p class="quiet" id="version"></p>
<p id="choice" hidden><label>Server <select id="servers"></select></label></p>
<p id="state" role="status">Not asked yet.</p>
</header>
<main id="all">
<dl class="tiles" id="tiles"></dl>
<p><label><input type="checkbox" id="day"> The last 24 hours, by minutes</label></p>
<div class="parts">
<section id="batches"></section>
<section id="total"></section>
<section id="top"></section>
<section id="degrees"></section>
<section id="latency"></section>
<section id="memory"></section>
<section id="layers" class="wide"></section>
<section id="told" class="wide"></section>
</div>
</main>
<script>
"use strict";
const SVG = "http://www.w3.org/2000/svg";
// What is drawn over time: the last ten minutes, or the history of a day, whose parts the tables have.
const RECENT = {most: 600, part: 60, words: "ten minutes", heading: "By minutes, the last one first"};
const DAY = {most: 86400, part: 3600, words: "24 hours", heading: "By hours, the last one first"};
let recent = {at: []}, day = {at: []}, kept = recent, shown = RECENT, server = 0;
const drawn = {};
let last = null, isIp = null;

// Elements.

function made(space, name, attributes, children) {
  const it = space ? document.createElementNS(space, name) : document.createElement(name);
  for (const key in attributes) it.setAttribute(key, attributes[key]);
  for (const child of children) it.append(child);
  return it;
}
const el = (name, attributes, ...children) => made(null, name, attributes || {}, children);
const shape = (name, attributes, ...children) => made(SVG, name, attributes, children);
const at = (id) => document.getElementById(id);

// Numbers for reading. Those above 2^53 come as words, and stay as they are.

function big(number) {
  if (number === null || number === undefined) return "?";
  if (typeof number === "string") return number.replace(/\B(?=(\d{3})+(?!\d))/g, ",");
  return number.toLocaleString("en", {maximumFractionDigits: Math.abs(number) < 10 ? 2 : 0});
}
// A long number by its unit, and whole where the pointer is at it.
function brief(number) {
  const value = Number(number);
  if (!(value >= 1e9)) return el("span", {}, big(number));
  const [unit, name] = [[1e18, "E"], [1e15, "P"], [1e12, "T"], [1e9, "G"]].find((it) => value >= it[0]);
  return el("span", {title: big(number)}, (Math.floor(value / unit * 10) / 10).toFixed(1) + " " + name);
}
function bytes(number) {
  let unit = 0;
  while (number >= 1000 && unit < 4) { number /= 1000; unit += 1; }
  return number.toLocaleString("en", {maximumFractionDigits: unit && number < 100 ? 1 : 0}) + " " +
    ["B", "kB", "MB", "GB", "TB"][unit];
}
// A number beside an axis, by thousands or millions where it is long.
function tick(number) {
  const by = number >= 1e12 ? [1e12, " T"] : number >= 1e9 ? [1e9, " G"] : number >= 1e6 ? [1e6, " M"] :
    number >= 1e4 ? [1e3, " k"] : [1, ""];
  return (number / by[0]).toLocaleString("en", {maximumFractionDigits: 2}) + by[1];
}
const short = (power) => ["1", "10", "100"][power % 3] + ["", " k", " M", " G", " T", " P"][Math.floor(power / 3)];
const millis = (number) => number === null ? "?" : number.toLocaleString("en", {maximumSignificantDigits: 3}) + " ms";
function lasting(seconds) {
  const whole = Math.floor(seconds);
  if (whole < 60) return whole + " s";
  if (whole < 3600) return Math.floor(whole / 60) + " min " + whole % 60 + " s";
  return Math.floor(whole / 3600) + " h " + Math.floor(whole % 3600 / 60) + " min";
}
function daysLeft(days) {
  const digits = days < 10 ? 2 : days < 100 ? 1 : 0;
  return days.toLocaleString("en", {maximumFractionDigits: digits}) + " days at the last hour's rate";
}
const clock = (time) => new Date(1000 * time).toLocaleTimeString("en-GB");
function row(number) {
  const value = Number(number);
  if (!isIp || value >= 2 ** 32) return String(number);
  return [24, 16, 8, 0].map((by) => Math.floor(value / 2 ** by) % 256).join(".");
}

// Tables.

function table(caption, heads, lines) {
  return el("div", {class: "scroll"}, el("table", {}, el("caption", {}, caption),
    el("thead", {}, el("tr", {}, ...heads.map((head) => el("th", {scope: "col"}, head)))),
    el("tbody", {}, ...lines.map((line) => el("tr", {}, ...line)))));
}
const cell = (words) => el("td", {}, words);
function barred(words, part) {
  return el("td", {class: "barred", style: "--part:" + (100 * part).toFixed(1) + "%"}, words);
}
function behind(id, words, content) {
  const old = at(id).querySelector("details"), isOpen = Boolean(old && old.open);
  const it = el("details", isOpen ? {open: ""} : {}, el("summary", {}, words));
  it.append(content);
  return it;
}
// Whether somebody reads a part: its table is open, words in it are chosen, or a picture is pointed at. For ten seconds
// at most it is then left as it is.
function isRead(id) {
  const chosen = getSelection(), part = at(id);
  const isChosen = chosen && !chosen.isCollapsed && part.contains(chosen.anchorNode);
  const isOpen = part.querySelector("details[open]") || part.querySelector("svg:hover");
  return !part.hidden && (isChosen || isOpen) && performance.now() - (drawn[id] || 0) < 10000;
}
function fill(id, title, ...children) {
  if (isRead(id)) return;
  drawn[id] = performance.now();
  const open = document.activeElement && at(id).contains(document.activeElement) &&
    document.activeElement.tagName === "SUMMARY";
  at(id).replaceChildren(el("h2", {}, title), ...children);
  at(id).hidden = false;
  if (open && at(id).querySelector("summary")) at(id).querySelector("summary").focus();
}

// Lines over the last ten minutes, or over a day.

function highest(numbers) {
  const most = Math.max(...numbers.filter((it) => it !== null), 0);
  if (most <= 0) return 1;
  const power = 10 ** Math.floor(Math.log10(most));
  return [1, 2, 2.5, 5, 10].map((it) => it * power).find((it) => it >= most * 1.0001) || 10 * power;
}
function summary(numbers, told) {
  const known = numbers.filter((it) => it !== null);
  if (!known.length) return "nothing yet";
  return "last " + told(known[known.length - 1]) + ", least " + told(Math.min(...known)) + ", most " +
    told(Math.max(...known));
}
function minutes(series, told) {
  const lines = [], end = kept.at[kept.at.length - 1];
  for (let part = 0; part < shown.most / shown.part; part += 1) {
    const those = kept.at.map((time, index) => index)
      .filter((index) => Math.floor((end - kept.at[index]) / shown.part) === part);
    if (!those.length) continue;
    const line = [cell(clock(kept.at[those[0]]) + " on")];
    for (const it of series) {
      const known = those.map((index) => it.values[index]).filter((value) => value !== null);
      const mean = known.length ? known.reduce((sum, value) => sum + value, 0) / known.length : null;
      line.push(cell(known.length ? told(mean) : "?"), cell(known.length ? told(Math.max(...known)) : "?"));
    }
    lines.push(line);
  }
  const heads = series.flatMap((it) => [it.name + ", mean", "highest"]);
  return table(shown.heading, ["From", ...heads], lines);
}
// Where times and values lie in a picture, up to now and to the highest value.
function planeOf(id, series) {
  const width = Math.max(260, at(id).clientWidth - 26), height = 190, left = 62, right = 10, top = 8, bottom = 22;
  const end = Math.max(last.now, kept.at[kept.at.length - 1]), most = highest(series.flatMap((it) => it.values));
  const span = Math.min(shown.most, Math.max(60, end - kept.at[0]));
  const x = (time) => left + (width - left - right) * (1 - (end - time) / span);
  const y = (value) => height - bottom - (height - top - bottom) * value / most;
  return {width, height, left, right: width - right, top, bottom: height - bottom, end, span, most, x, y};
}
function rule(picture, plane, told) {
  for (let part = 0; part <= 4; part += 1) {
    const value = plane.most * part / 4, level = plane.y(value);
    picture.append(shape("line", {class: part ? "grid" : "axis", x1: plane.left, x2: plane.right, y1: level, y2: level}),
      shape("text", {x: plane.left - 6, y: level + 4, "text-anchor": "end"}, told === big ? tick(value) : told(value)));
  }
  const steps = [15, 30, 60, 120, 300, 900, 1800, 3600, 7200, 10800, 21600, 28800];
  const step = steps.find((it) => plane.span / it <= (plane.width < 420 ? 3 : 5)) || 28800;
  for (let back = 0; back <= plane.span; back += step) {
    const [unit, name] = step < 60 ? [1, " s"] : step < 3600 ? [60, " min"] : [3600, " h"];
    const words = back === 0 ? "now" : "\u2212" + back / unit + name;
    picture.append(shape("text", {x: plane.x(plane.end - back), y: plane.height - 5,
      "text-anchor": back === 0 ? "end" : back > plane.span - 1 ? "start" : "middle"}, words));
  }
}
function trace(plane, values) {
  let path = "", isDown = false;
  values.forEach((value, index) => {
    const isSeen = value !== null && plane.end - kept.at[index] <= plane.span;
    if (isSeen) path += (isDown ? "L" : "M") + plane.x(kept.at[index]).toFixed(1) + " " + plane.y(value).toFixed(1);
    isDown = isSeen;
  });
  return path || "M0 0";
}
// What the lines are, or what they were at the time that is pointed at.
function legendOf(picture, plane, series, told) {
  const says = el("div", {class: "quiet"});
  const pointed = shape("line", {class: "axis", y1: plane.top, y2: plane.bottom, visibility: "hidden"});
  const leave = () => {
    pointed.setAttribute("visibility", "hidden");
    says.replaceChildren(...series.map((it) => el("p", {},
      el("span", {class: "key", style: `background:var(--${it.role})`}), it.name + ": " + summary(it.values, told))));
  };
  picture.append(pointed);
  picture.addEventListener("pointerleave", leave);
  picture.addEventListener("pointermove", (event) => {
    const box = picture.getBoundingClientRect(), place = (event.clientX - box.left) * plane.width / box.width;
    const far = kept.at.map((time) => Math.abs(plane.x(time) - place)), nearest = far.indexOf(Math.min(...far));
    for (const key of ["x1", "x2"]) pointed.setAttribute(key, plane.x(kept.at[nearest]));
    pointed.setAttribute("visibility", "visible");
    says.textContent = clock(kept.at[nearest]) + ": " + series.map((it) => it.name + " " +
      (it.values[nearest] === null ? "?" : told(it.values[nearest]))).join(", ");
  });
  leave();
  return says;
}
function drawLines(id, title, series, told) {
  at(id).hidden = !kept.at.length || !series.some((it) => it.values.some((value) => value !== null));
  if (at(id).hidden) return;
  const plane = planeOf(id, series), label = title + `, over ${shown.words} at most: ` +
    series.map((it) => (series.length > 1 ? it.name + " " : "") + summary(it.values, told)).join("; ");
  const picture = shape("svg", {viewBox: `0 0 ${plane.width} ${plane.height}`, role: "img", "aria-label": label});
  rule(picture, plane, told);
  for (const it of series) picture.append(shape("path", {class: "line " + it.role, d: trace(plane, it.values)}));
  const says = legendOf(picture, plane, series, told);
  fill(id, title, picture, says, behind(id, "As a table", minutes(series, told)));
}

// Degrees, on logarithmic axes.

function drawDegrees(degrees) {
  if (!degrees || !degrees.bins.length) { at("degrees").hidden = true; return; }
  const width = Math.max(260, at("degrees").clientWidth - 26), height = 250;
  const left = 62, right = 14, top = 10, bottom = 38;
  const powers = (number) => Math.max(1, Math.ceil(Math.log10(number)));
  const wide = powers(Math.max(...degrees.bins.map((it) => it[1])));
  const high = powers(Math.max(...degrees.bins.map((it) => it[2])));
  const x = (value) => left + (width - left - right) * Math.log10(value) / wide;
  const y = (value) => height - bottom - (height - top - bottom) * Math.log10(value) / high;
  const part = degrees.is_whole ? "all " + big(degrees.rows) + " rows" :
    "the " + big(degrees.rows) + " rows with most entries; rows with fewer aren't drawn";
  const label = "How many rows have how many entries, on logarithmic axes, of " + part;
  const picture = shape("svg", {viewBox: `0 0 ${width} ${height}`, role: "img", "aria-label": label});
  for (let power = 0; power <= high; power += 1) {
    picture.append(shape("line", {class: power ? "grid" : "axis", x1: left, x2: width - right, y1: y(10 ** power),
      y2: y(10 ** power)}), shape("text", {x: left - 6, y: y(10 ** power) + 4, "text-anchor": "end"}, short(power)));
  }
  for (let power = 0; power <= wide; power += 1) {
    picture.append(shape("line", {class: power ? "grid" : "axis", y1: top, y2: height - bottom, x1: x(10 ** power),
      x2: x(10 ** power)}));
    picture.append(shape("text", {x: x(10 ** power), y: height - bottom + 15, "text-anchor": power === wide ? "end" :
      "middle"}, short(power)));
  }
  picture.append(shape("text", {x: (left + width - right) / 2, y: height - 5, "text-anchor": "middle"},
    "entries of a row (up to twice as many)"));
  const places = degrees.bins.map((it) => [x(it[0]), y(it[2])]);
  picture.append(shape("path", {class: "line first",
    d: "M" + places.map((it) => it[0].toFixed(1) + " " + it[1].toFixed(1)).join("L")}));
  places.forEach((place, index) => picture.append(shape("circle", {class: "mark", cx: place[0].toFixed(1),
    cy: place[1].toFixed(1), r: 4.5}, shape("title", {}, told(degrees.bins[index])))));
  function told(bin) { return words(bin) + ": " + big(bin[2]); }
  function words(bin) { return bin[0] === bin[1] ? big(bin[0]) : big(bin[0]) + " to " + big(bin[1]); }
  const lines = degrees.bins.map((it) => [cell(words(it)), cell(big(it[2]))]);
  const note = "Of " + part + ", as of " + clock(degrees.at) + ".";
  fill("degrees", "Degrees of rows", picture, el("p", {class: "quiet"}, note),
    behind("degrees", "As a table", table("Rows by their numbers of entries", ["Entries", "Rows"], lines)));
}

// The rest.

function drawTop(top) {
  if (!top) { at("top").hidden = true; return; }
  const most = Math.max(...top.map((it) => Number(it[2])), 1);
  const name = (it, place) => last.names[place] || row(it[0]);
  const lines = top.map((it, place) => [cell(name(it, place)), cell(big(it[1])),
    barred(brief(it[2]), Number(it[2]) / most)]);
  const box = el("input", {type: "checkbox", id: "ip"});
  box.checked = isIp;
  box.addEventListener("change", () => { isIp = box.checked; drawTop(last.top); at("ip").focus(); });
  const isHere = document.activeElement && document.activeElement.id === "ip";
  const rows = table("The highest total first", ["Row", "Entries", "Total"], lines);
  fill("top", "Rows that lead by total", top.length ? rows : el("p", {}, "No row has an entry."),
    el("label", {}, box, " Rows as IPv4 addresses"));
  if (isHere) at("ip").focus();
}
function drawLayers(layers) {
  if (!layers.length) { at("layers").hidden = true; return; }
  const shards = [...new Set(layers.map((it) => it[0]))], levels = [...new Set(layers.map((it) => it[1]))];
  const found = new Map(layers.map((it) => [it[0] + " " + it[1], it]));
  const most = levels.map((level) => Math.max(...layers.filter((it) => it[1] === level).map((it) => it[2]), 1));
  const sums = levels.map((level) => layers.filter((it) => it[1] === level).reduce((sum, it) => sum + it[2], 0));
  const lines = shards.map((shard) => [cell("Shard " + shard), ...levels.map((level, index) => {
    const it = found.get(shard + " " + level);
    if (!it) return cell("");
    return barred(big(it[2]) + (it[3] === null ? "" : " in " + big(it[3])), it[2] / most[index]);
  })]);
  const all = [[cell("All"), ...sums.map((sum) => cell(big(sum)))]];
  const heads = ["", ...levels.map((level) => "Layer " + level)];
  const runs = layers.some((it) => it[3] !== null) ? ", in so many runs" : "";
  fill("layers", "Layers of all shards", el("p", {class: "quiet"}, "Entries at most" + runs +
    "; a bar compares the shards of a layer."), table("", heads, all),
    behind("layers", "Of each shard", table("", heads, lines)));
}
function drawTold(stats) {
  if (!stats.length) { at("told").hidden = true; return; }
  const lines = stats.map((it) => [cell(it[0]), cell(typeof it[1] === "number" ? String(it[1]) : it[1])]);
  fill("told", "All that is told", behind("told", "As a table", table("", ["Name", "Value"], lines)));
}
function drawTiles(now) {
  const found = [];
  const tile = (name, value, more, isBad) => {
    if (value !== null && value !== undefined) found.push([name, value, more, isBad]);
  };
  const told = (key) => now.numbers[key];
  const number = (key) => told(key) === null ? null : big(told(key));
  // (batches, or a total, above a limit are refused)
  const share = (number, key) => told(key) ? Number(number) / Number(told(key)) : 0;
  const more = (rate, part) => [rate === null ? "" : brief(rate).textContent + " a second",
    part < 0.5 ? "" : Math.floor(100 * part) + " % of its limit"].filter(Boolean).join(", ");
  const [full, high] = [share(now.batches, "max_batches"), share(now.total, "limit")];
  tile("Batches", big(now.batches), more(now.rates.batches, full), full > 0.95);
  tile("Total", brief(now.total), more(now.rates.total, high), high > 0.95);
  const lefts = {batches_left: "Batches left", total_left: "Total left", log_bytes_left: "Log left"};
  for (const [name, left, days] of now.left) {
    const value = name === "log_bytes_left" ? bytes(Number(left)) : brief(left);
    tile(lefts[name], value, days === null ? "" : daysLeft(days), days !== null && days < 1);
  }
  if (now.rates.cells !== null) tile("Cells put", number("cells"), big(now.rates.cells) + " a second");
  tile("Repeats", number("repeats"));
  tile("Refused", number("refused"), now.refused.map((it) => it[0] + " " + big(it[1])).join(", "),
    now.is_refusing);
  if (told("open") !== null) tile("Sessions", number("open") + " open",
    (told("waiting") === null ? "" : number("waiting") + " waiting, ") +
    (told("served") === null ? "" : number("served") + " served, ") +
    (told("workers") === null ? "" : number("workers") + " workers"), told("waiting") > 0);
  if (told("memory") !== null) tile("Memory", bytes(told("memory")),
    now.rates.processor === null ? "" : big(100 * now.rates.processor) + " % of a processor");
  if (told("saves") !== null) {
    const since = told("saved") === null ? "" : big(Math.max(0, now.batches - told("saved"))) + " batches since, ";
    tile("Last save", told("saves") === 0 || told("save_age") === null ? "none" : lasting(told("save_age")) + " ago",
      since + number("saves") + " saves, " + (number("failed") || "0") + " failed", now.is_unsaved);
  }
  for (const [name, key] of [["Received", "received"], ["Sent", "sent"]]) {
    if (told(key) !== null) tile(name, bytes(Number(told(key))),
      now.rates[key] === null ? "" : bytes(now.rates[key]) + " a second");
  }
  if (told("log_durable") !== null) tile("Durable", number("log_durable") + " batches",
    [["log_pages", "pages"], ["log_room", "ready"], ["log_syncs", "syncs"], ["log_group", "in the last group"]]
      .filter((it) => told(it[0]) !== null).map((it) => number(it[0]) + " " + it[1])
      .concat(told("log_failed") ? ["the log has failed"] : []).join(", "), told("log_failed") > 0);
  at("tiles").replaceChildren(...found.map((it) => el("div", it[3] ? {class: "bad"} : {}, el("dt", {}, it[0]),
    el("dd", {}, it[1], ...(it[2] ? [el("small", {}, it[2])] : [])))));
}
function say(words, isBad) {
  const state = at("state");
  if (state.textContent !== words) state.textContent = words;
  state.className = isBad ? "bad" : "";
  at("all").className = isBad ? "stale" : "";
}
function keep(series) {
  for (const key in series) recent[key] = (recent[key] || []).concat(series[key]);
  const end = recent.at[recent.at.length - 1];
  const from = recent.at.findIndex((time) => end - time <= RECENT.most);
  if (from > 0) for (const key in recent) recent[key] = recent[key].slice(from);
}
// A history that has just begun has nothing to draw, and the last ten minutes are shown.
async function chooseSpan() {
  if (at("day").checked) day = await (await fetch("day.json?server=" + server, {cache: "no-store"})).json();
  const isDay = at("day").checked && day.at.length > 2;
  [kept, shown] = isDay ? [day, DAY] : [recent, RECENT];
  for (const id of ["batches", "total", "latency", "memory"]) drawn[id] = -10000;
  redraw();
}
function draw(now) {
  at("place").textContent = now.place;
  at("choice").hidden = now.places.length < 2;
  if (at("servers").options.length !== now.places.length)
    at("servers").replaceChildren(...now.places.map((place) => el("option", {}, place)));
  document.title = (now.fault ? "(no answer) " : "") + "hhm " + now.place;
  if (isIp === null) isIp = now.is_ip;
  keep(now.series);
  const since = now.answered ? " since " + clock(now.answered) : "";
  const then = now.answered ? ". What is shown is from then." : "";
  const lacks = " It doesn't tell " + now.lacking.join(" and ") + ".";
  if (now.fault) say("No answer from the server" + since + ": " + now.fault + then, true);
  else if (now.answered) say("The server answers." + (now.lacking.length ? lacks : ""), false);
  if (!now.answered) return;
  at("version").textContent = [now.version && "version " + now.version,
    now.numbers.uptime !== null && "up " + lasting(now.numbers.uptime),
    now.numbers.rows !== null && now.numbers.cols !== null && big(now.numbers.rows) + " rows by " +
    big(now.numbers.cols) + " columns"].filter(Boolean).join(", ");
  last = now;
  redraw();
}
function redraw() {
  const now = last;
  if (!now) return;
  drawTiles(now);
  drawLines("batches", "Batches a second", [{name: "batches", values: kept.batches, role: "first"}], big);
  drawLines("total", "Rise of the total in a second", [{name: "total", values: kept.total, role: "first"}], big);
  drawLines("latency", "Latency of a status and of a cell", [{name: "status", values: kept.status_ms, role: "first"},
    {name: "cell", values: kept.cell_ms, role: "second"}], millis);
  drawLines("memory", "Memory", [{name: "resident", values: kept.memory, role: "first"}], bytes);
  drawTop(now.top);
  drawDegrees(now.degrees);
  drawLayers(now.layers);
  drawTold(now.stats);
}
async function ask() {
  try {
    const since = recent.at.length ? recent.at[recent.at.length - 1] : 0;
    const asked = server, answer = await fetch("stats.json?server=" + server + "&since=" + since, {cache: "no-store"});
    if (!answer.ok) throw new Error("status " + answer.status);
    const now = await answer.json();
    if (asked === server) draw(now);
  } catch (fault) {
    say("The program behind this page, hhmc metrics, doesn't answer: " + fault.message, true);
    document.title = "(no answer) hhm";
  }
  setTimeout(ask, document.hidden ? 5000 : 1000);
}
window.addEventListener("resize", redraw);
at("day").addEventListener("change", chooseSpan);
at("servers").addEventListener("change", () => {
  server = at("servers").selectedIndex;
  last = null;
  recent = {at: []};
  chooseSpan();
});
setInterval(() => { if (at("day").checked) chooseSpan(); }, 60000);
ask();
</script>
</body>
</html>
"""
