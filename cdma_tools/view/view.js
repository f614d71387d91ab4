"use strict";
// What the page does in a browser: it takes the listening's updates over one WebSocket, keeps the last of them, and
// draws what is new four times a second. All text of the air goes in as text, by textContent; plots get only numbers.

const MOST_LINES = 2000, MOST_ROWS = 200, MOST_SPECTRA = 100, MOST_POINTS = 1200;
const DRAW_EVERY = 250, RETRY_AFTER = 2000;  // milliseconds
const TIME_SHOWN = 30;  // seconds of the time line
const MOST_CHANNELS = 500;
const LOWEST = -45;  // dB, of a row of the code domain
const HALF_CHANNEL = 614.4;  // kHz
const WITH_STEPS = ["sync", "paging", "frame", "frame2", "traffic"];  // lines that end in a frame
const COLORS = { "pilot": "#1f6fb2", "sync": "#d9822b", "paging": "#2a8c4a", "other": "#6b7a89", "not in use": "#d5dae0" };
const LANES = ["frame", "traffic", "paging", "sync", "sets"];
const FIGURES = [["Ec/Io, dB", "ec_io_db"], ["Carrier, Hz", "carrier_hz"], ["Clock, ppm", "clock_ppm"], ["rho", "rho"]];
const CELL_PLOTS = ["spectrum", "domain", "symbols", "waterfall", "history", "correlation"];
const FONT = { family: "system-ui, sans-serif", size: 10, color: "#22303c" };
const AXIS = { zeroline: false, showline: true, linecolor: "#aab4bf", automargin: false };

const place = (name) => document.getElementById(name);
let held, socket, isPaused = false, dirty = new Set();

function emptied() {
  return { run: "", source: {}, lines: [], kinds: new Set(), channels: new Set(), followed: [], ended: null, serial: 0, drawn: 0, ...emptiedCell(0) };
}

// What the page has of the one cell whose signal it shows.
function emptiedCell(chosen) {
  return { chosen, spectra: [], points: [], figures: {}, quality: {}, domain: null, symbols: null, correlation: null, cells: null, identity: null };
}

// Elements

function cell(text, name = "td") {
  const made = document.createElement(name);
  made.textContent = text;
  return made;
}

function row(texts, first = "td") {
  const made = document.createElement("tr");
  texts.forEach((text, at) => made.append(cell(text, at ? "td" : first)));
  return made;
}

function fill(table, rows) {
  table.tBodies[0].replaceChildren(...rows);
}

// What comes in

function take(told) {
  if (told.hello) {
    held = emptied();
    held.run = told.hello.run;
    place("name").textContent = told.hello.name;
    document.title = told.hello.name;
    place("kind").replaceChildren(new Option("all types", ""));
    place("channel").replaceChildren(new Option("all channels", ""));
    place("channel").hidden = true;
    place("lines").className = "";
    place("cell").replaceChildren();
    place("cell").hidden = place("followed").hidden = true;
    for (const name of ["lines", "followed"]) fill(place(name), []);
    dirty = new Set(["lines", "figures"]);
  }
  if (told.chosen) takeChosen(told.chosen);
  if (told.fields) {
    showFields(told.fields);
    return;
  }
  if (told.steps) {
    place("steps-text").textContent = told.steps.text;
    place("steps").disabled = false;
    return;
  }
  for (const line of told.lines || []) addLine(line);
  for (const remark of told.remarks || []) addLine({ n: -1, kind: "remark", seconds: remark.seconds, text: remark.text });
  if (told.spectra) {
    held.spectra = held.spectra.concat(told.spectra).slice(-MOST_SPECTRA);
    mark("spectrum", "waterfall");
  }
  if (told.points) {
    held.points = held.points.concat(told.points);
    if (held.points.length > MOST_POINTS) held.points = held.points.filter((_, at) => at % 2 === 0);
    mark("history");
  }
  for (const name of ["source", "figures", "quality", "domain", "symbols", "correlation", "cells", "identity", "counts", "followed", "stage", "ended", "missed"]) {
    if (name in told) {
      held[name] = told[name];
      mark(["missed", "ended", "stage"].includes(name) ? "figures" : name);
    }
  }
  if (told.figures) mark("timeline");
}

// Shows another cell: nothing of the one before stays.
function takeChosen(chosen) {
  Object.assign(held, emptiedCell(chosen.number), { points: chosen.history });
  for (const name of CELL_PLOTS) Plotly.purge(place(name));
  for (const name of ["domain-note", "cells-note", "figures-note"]) place(name).textContent = "";
  for (const name of ["cells", "station"]) fill(place(name), []);
  for (const name of ["report", "samples"]) place(`save-${name}`).search = chosen.number ? `?cell=${chosen.number}` : "";
  mark("history", "spectrum", "waterfall", "timeline", "figures", "followed");
}

function addLine(line) {
  held.serial += 1;
  held.lines.push({ ...line, serial: held.serial, where: line.channel === undefined ? "" : `cell ${line.cell}, ${line.channel}` });
  if (held.lines.length > MOST_LINES) held.lines.splice(0, held.lines.length - MOST_LINES);
  if (!held.kinds.has(line.kind)) {
    held.kinds.add(line.kind);
    place("kind").append(new Option(line.kind, line.kind));
  }
  if (line.channel !== undefined) {
    addChannel(`cell ${line.cell}`);
    addChannel(`cell ${line.cell}, ${line.channel}`);
  }
  mark("lines", "timeline");
}

// Shows the columns and the choice of cells and channels once a line has one; several thousand would be no choice.
function addChannel(where) {
  if (held.channels.has(where) || held.channels.size >= MOST_CHANNELS) return;
  held.channels.add(where);
  place("channel").append(new Option(where, where));
  if (held.channels.size > 1) return;
  place("channel").hidden = false;
  place("lines").className = "several";
  fill(place("lines"), []);
  held.drawn = 0;
}

function mark(...names) {
  for (const name of names) dirty.add(name);
}

// The head

const draw = {};

draw.figures = () => {
  const figures = held.figures, state = place("state");
  place("seconds").textContent = figures.seconds === undefined ? "0" : figures.seconds.toFixed(1);
  const all = held.followed.length ? held.followed : [{ lag: 0, lost_samples: 0, lost_chips: 0 }];
  place("lag").textContent = `${Math.max(...all.map((one) => one.lag)).toFixed(1)} s`;
  const sum = (name) => all.reduce((total, one) => total + one[name], 0);
  const lost = [[sum("lost_samples"), "samples"], [sum("lost_chips"), "chips"], [figures.dropped_lines, "lines"]].filter(([count]) => count);
  place("lost").textContent = lost.map(([count, what]) => `${count.toLocaleString("en")} ${what}`).join(", ") || "none";
  place("missed").textContent = held.missed ? `${held.missed.toLocaleString("en")} updates` : "none";
  if (held.ended) {
    state.textContent = `ended: ${held.ended.text}`;
    state.className = held.ended.status ? "bad" : "good";
  } else {
    state.textContent = figures.state || (held.stage ? held.stage.text : "waiting for the source");
    state.className = figures.is_locked ? "good" : "";
  }
  state.title = state.textContent;
  noteFigures();
};

// The choice of a cell, and what is shown of each, whichever is chosen.
draw.followed = () => {
  const choice = place("cell"), names = held.followed.map((one) => `cell ${one.name}${one.pn === null ? "" : `, PN ${one.pn}`}`);
  names.forEach((name, at) => {
    if (at === choice.options.length) choice.append(new Option(name, at));
    else if (choice.options[at].text !== name) choice.options[at].text = name;
  });
  choice.hidden = place("followed").hidden = names.length < 2;
  choice.value = String(held.chosen);
  const number = (value, digits) => (value === null ? "" : value.toFixed(digits));
  fill(place("followed"), choice.hidden ? [] : held.followed.map((one, at) => {
    const made = row([one.name, one.pn === null ? "" : one.pn, number(one.ec_io_db, 2), number(one.lag, 1), one.lines.toLocaleString("en")]);
    made.className = at === held.chosen ? "chosen" : "";
    made.title = one.state;
    return made;
  }));
  draw.figures();
};

draw.quality = noteFigures;

function noteFigures() {
  const figures = held.figures, told = [];
  if (held.quality.ec_io_db !== undefined) told.push(`Ec/Io ${held.quality.ec_io_db.toFixed(2)} dB`, `rho ${held.quality.rho.toFixed(4)}`);
  if (figures.carrier_hz !== undefined) told.push(`carrier ${figures.carrier_hz.toFixed(1)} Hz`, `clock ${figures.clock_ppm.toFixed(2)} ppm`);
  if (figures.is_inverted) told.push("inverted spectrum");
  place("figures-note").textContent = told.join(", ");
}

// Plots

function plot(name, traces, layout) {
  const whole = { margin: { l: 40, r: 8, t: 4, b: 24 }, font: FONT, showlegend: false, hovermode: "closest", ...layout };
  return Plotly.react(place(name), traces, whole, { displayModeBar: false, responsive: true });
}

function frequencies() {
  const { rate, frequency } = held.source, bins = held.spectra[0].levels.length;
  const isKnown = typeof frequency === "number", scale = isKnown ? 1e6 : 1e3, middle = isKnown ? frequency : 0;
  const x = Array.from({ length: bins }, (_, at) => (middle + (at - bins / 2) * rate / bins) / scale);
  return { x, scale, middle, title: isKnown ? "MHz" : "kHz above the middle" };
}

draw.spectrum = () => {
  if (!held.spectra.length || !held.source.rate) return;
  const { x, scale, middle, title } = frequencies(), last = held.spectra.slice(-10);
  const levels = x.map((_, at) => 10 * Math.log10(last.reduce((sum, one) => sum + 10 ** (one.levels[at] / 10), 0) / last.length));
  const carrier = held.figures.carrier_hz, shapes = [];
  if (carrier !== undefined) {
    const edges = [-HALF_CHANNEL, HALF_CHANNEL].map((side) => (middle + carrier + 1e3 * side) / scale);
    shapes.push({ type: "rect", x0: edges[0], x1: edges[1], y0: 0, y1: 1, yref: "paper", fillcolor: "#2a8c4a", opacity: 0.08, line: { width: 0 } });
    const at = (middle + carrier) / scale;
    shapes.push({ type: "line", x0: at, x1: at, y0: 0, y1: 1, yref: "paper", line: { color: "#c0392b", dash: "dot", width: 1 } });
  }
  plot("spectrum", [{ x, y: levels, mode: "lines", line: { color: "#1f6fb2", width: 1.2 } }],
       { shapes, margin: { l: 40, r: 8, t: 4, b: 36 }, xaxis: { ...AXIS, title: { text: title, standoff: 8 } }, yaxis: { ...AXIS } });
};

draw.waterfall = () => {
  if (!held.spectra.length || !held.source.rate) return;
  const { x } = frequencies(), levels = held.spectra.map((one) => one.levels);
  const sorted = levels.filter((_, at) => at % 8 === 0).flat().sort((one, other) => one - other);
  const zmin = sorted[Math.floor(0.02 * sorted.length)], zmax = sorted[Math.floor(0.999 * sorted.length)];
  plot("waterfall", [{ type: "heatmap", x, y: held.spectra.map((one) => one.seconds), z: levels, zmin, zmax, colorscale: "Viridis", showscale: false, zsmooth: false }],
       { xaxis: { ...AXIS }, yaxis: { ...AXIS } });
};

draw.domain = () => {
  const { levels, kinds, used, floor_db } = held.domain;
  place("domain-note").textContent = `${used.length} rows in use, noise floor ${floor_db} dB`;
  plot("domain", [{ type: "bar", x: levels.map((_, at) => at), y: levels.map((level) => level - LOWEST), base: LOWEST, customdata: levels.map((level, at) => [level, kinds[at]]),
                    marker: { color: kinds.map((kind) => COLORS[kind]) }, hovertemplate: "row %{x}: %{customdata[0]} dB, %{customdata[1]}<extra></extra>" }],
       { bargap: 0.15, xaxis: { ...AXIS, range: [-0.7, 63.7], dtick: 8 }, yaxis: { ...AXIS, range: [LOWEST, 0] } });
};

draw.symbols = () => {
  const traces = Object.entries(held.symbols).map(([name, [x, y]]) => ({ x, y, name, type: "scatter", mode: "markers", marker: { size: 3, color: COLORS[name] } }));
  plot("symbols", traces, { showlegend: true, legend: { orientation: "h", y: 1.02, yanchor: "bottom", x: 0 }, margin: { l: 30, r: 8, t: 18, b: 20 },
                            xaxis: { ...AXIS }, yaxis: { ...AXIS, scaleanchor: "x" } });
};

draw.correlation = () => {
  const { deltas, levels, floor_db } = held.correlation, bottom = Math.min(floor_db, ...levels) - 3;
  plot("correlation", [{ type: "bar", x: deltas, y: levels.map((level) => level - bottom), base: bottom, customdata: levels,
                         marker: { color: levels.map((level) => (level >= floor_db ? "#1f6fb2" : "#aab4bf")) }, hovertemplate: "%{x:+d} chips: %{customdata} dB<extra></extra>" }],
       { xaxis: { ...AXIS }, yaxis: { ...AXIS, range: [bottom, 0] },
         shapes: [{ type: "line", x0: 0, x1: 1, xref: "paper", y0: floor_db, y1: floor_db, line: { color: "#c0392b", dash: "dot", width: 1 } }] });
};

draw.history = () => {
  const traces = [], layout = { margin: { l: 8, r: 8, t: 14, b: 20 }, annotations: [] };
  FIGURES.forEach(([title, _], at) => {
    const number = at ? String(at + 1) : "", column = at % 2, level = at < 2 ? 1 : 0;
    traces.push({ x: held.points.map((point) => point[0]), y: held.points.map((point) => point[at + 1]), name: title, mode: "lines",
                  line: { color: "#1f6fb2", width: 1.2 }, xaxis: `x${number}`, yaxis: `y${number}` });
    layout[`xaxis${number}`] = { ...AXIS, domain: [0.06 + 0.52 * column, 0.48 + 0.52 * column], anchor: `y${number}`, showticklabels: level === 0 };
    layout[`yaxis${number}`] = { ...AXIS, domain: [0.55 * level, 0.55 * level + 0.38], anchor: `x${number}`, nticks: 4 };
    layout.annotations.push({ text: title, showarrow: false, xref: "paper", yref: "paper", x: 0.06 + 0.52 * column, y: 0.55 * level + 0.38, xanchor: "left", yanchor: "bottom", font: FONT });
  });
  plot("history", traces, layout);
};

draw.timeline = () => {
  const end = Math.max(held.figures.seconds || 0, ...held.lines.slice(-MOST_ROWS).map((line) => line.seconds)), begin = Math.max(0, end - TIME_SHOWN);
  const lane = (line) => LANES.indexOf(line.kind.split(" ")[0].replace("frame2", "frame"));
  const chosen = held.followed.length > 1 ? held.followed[held.chosen].name : undefined;
  const isOf = (line) => chosen === undefined || line.cell === chosen;
  const shown = held.lines.filter((line) => line.n >= 0 && line.seconds >= begin && lane(line) >= 0 && isOf(line));
  const color = (line) => (line.good === 0 ? "#c0392b" : ["#6b7a89", "#0f7f86", "#2a8c4a", "#d9822b", "#6a4fb3"][lane(line)]);
  plot("timeline", [{ type: "scatter", mode: "markers", x: shown.map((line) => line.seconds), y: shown.map(lane), customdata: shown.map((line) => line.n),
                      marker: { size: 7, symbol: "line-ns-open", color: shown.map(color) }, hovertemplate: "%{x:.3f} s<extra></extra>" }],
       { margin: { l: 52, r: 8, t: 4, b: 24 }, xaxis: { ...AXIS, range: [begin, Math.max(end, begin + 1)] },
         yaxis: { ...AXIS, range: [-0.6, LANES.length - 0.4], tickvals: LANES.map((_, at) => at), ticktext: LANES } });
};

// Tables

function isShown(line) {
  const kind = place("kind").value, channel = place("channel").value;
  const words = place("text").value.toLowerCase().split(/\s+/).filter((word) => word);
  const text = `${line.kind} ${line.where} ${line.text}`.toLowerCase();
  const isThere = !channel || line.where === channel || `cell ${line.cell}` === channel;
  return (!kind || line.kind === kind) && isThere && words.every((word) => text.includes(word));
}

function lineRow(line) {
  const where = held.channels.size ? [line.cell === undefined ? "" : line.cell, line.channel || ""] : [];
  const made = row([line.seconds.toFixed(3), line.kind, ...where, line.text]);
  made.className = line.kind === "remark" ? "remark" : line.good === 0 ? "bad" : "";
  made.title = line.utc || "";
  if (line.n >= 0) made.dataset.line = line.n;
  return made;
}

// Puts new lines above those that are there, whose elements stay, so that a click meets the line that it was meant for.
draw.lines = () => {
  const body = place("lines").tBodies[0], found = held.lines.filter(isShown);
  const added = found.filter((line) => line.serial > held.drawn).slice(-MOST_ROWS).reverse();
  held.drawn = held.serial;
  body.prepend(...added.map(lineRow));
  while (body.rows.length > MOST_ROWS) body.lastElementChild.remove();
  place("lines-note").textContent = `${found.length.toLocaleString("en")} of the last ${held.lines.length.toLocaleString("en")}`;
};

function drawLinesAnew() {
  fill(place("lines"), []);
  held.drawn = 0;
  draw.lines();
}

draw.cells = () => {
  const { cells, is_known } = held.cells;
  place("cells-note").textContent = is_known ? "" : "by steps after the strongest: no sync message has come";
  fill(place("cells"), cells.map((one) => row([is_known ? one.pn : `+${one.pn}`, one.ec_io_db.toFixed(2), one.delay])));
};

draw.identity = () => {
  const rows = [];
  for (const [name, fields] of Object.entries(held.identity)) {
    const head = cell(name, "th");
    head.colSpan = 3;
    const made = document.createElement("tr");
    made.append(head);
    rows.push(made, ...fields.map((field) => row(field, "th")));
  }
  fill(place("station"), rows);
};

draw.counts = () => {
  place("counts-note").textContent = Object.entries(held.counts).map(([name, count]) => `${name} ${count.toLocaleString("en")}`).join(", ");
};

draw.source = () => mark("spectrum", "waterfall");

function showFields(told) {
  place("fields-head").textContent = told.rows.length ? "Fields of a line" : "This line isn't kept any more";
  place("fields-line").textContent = told.text;
  fill(place("fields-table"), told.rows.map((fields) => row(fields, "th")));
  place("steps-text").textContent = "";
  place("steps").dataset.line = told.line;
  place("steps").disabled = false;
  place("steps").hidden = !WITH_STEPS.includes(told.text.split(" ")[0]);
  if (!place("fields").open) place("fields").showModal();
}

// The loop

function drawAll() {
  if (isPaused || document.hidden || !held) return;
  const names = [...dirty];
  dirty = new Set();
  for (const name of names) {
    if (draw[name] && held[name] !== null) draw[name]();
  }
  document.body.dataset.drawn = Number(document.body.dataset.drawn || 0) + 1;
}

function connect() {
  const address = new URL("events", location.href);
  address.protocol = "ws:";
  socket = new WebSocket(address);
  socket.onmessage = (message) => take(JSON.parse(message.data));
  socket.onclose = () => {
    const state = place("state");
    const ended = held && held.ended ? `ended: ${held.ended.text}; ` : "";
    state.textContent = `${ended}no connection to the server; trying again every ${RETRY_AFTER / 1000} s`;
    state.className = "bad";
    setTimeout(connect, RETRY_AFTER);
  };
}

place("pause").addEventListener("click", () => {
  isPaused = !isPaused;
  place("pause").setAttribute("aria-pressed", String(isPaused));
  place("pause").textContent = isPaused ? "Go on" : "Pause";
});
place("filter").addEventListener("submit", (event) => event.preventDefault());
place("kind").addEventListener("change", () => held && drawLinesAnew());
place("cell").addEventListener("change", () => {
  if (socket.readyState === WebSocket.OPEN) socket.send(JSON.stringify({ cell: Number(place("cell").value) }));
});
place("channel").addEventListener("change", () => held && drawLinesAnew());
place("text").addEventListener("input", () => held && drawLinesAnew());
place("lines").addEventListener("click", (event) => {
  const chosen = event.target.closest("tr[data-line]");
  if (chosen && socket.readyState === WebSocket.OPEN) socket.send(JSON.stringify({ line: Number(chosen.dataset.line) }));
});
place("steps").addEventListener("click", () => {
  if (socket.readyState !== WebSocket.OPEN) return;
  place("steps").disabled = true;
  socket.send(JSON.stringify({ steps: Number(place("steps").dataset.line) }));
});
setInterval(drawAll, DRAW_EVERY);
connect();
