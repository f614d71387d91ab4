"use strict";
// What the page does in a browser: it unpacks Plotly, draws the plots, and searches the lines. All text of the recording
// goes in as text: into an element by textContent, and into a plot with its &, < and > as entities.

// The lines of each command, as they stand in the page.
const lines = {};
for (const place of document.querySelectorAll("pre.lines")) {
  lines[place.dataset.command] = place.textContent === "" ? [] : place.textContent.split("\n");
}

// A line for a plot's box: cut into rows of at most 90 characters, at spaces where there are some.
function boxed(line) {
  const rows = line.match(/.{1,90}(?= |$)|.{90}/g) || [line];
  return rows.map((row) => row.replace(/&/g, "&amp;").replace(/</g, "&lt;").replace(/>/g, "&gt;")).join("<br>");
}

// Gives the points of a trace the lines that they stand for.
function fillIn(trace) {
  if (trace.meta && trace.meta.lines) {
    const texts = lines[trace.meta.lines];
    trace.text = trace.customdata.map((place) => boxed(texts[place]));
  }
  return trace;
}

function pick(event) {
  const point = event.points[0];
  const meta = point.data.meta;
  if (meta && meta.lines) {
    const picked = document.getElementById("picked");
    picked.textContent = lines[meta.lines][point.customdata];
    picked.classList.add("full");
  }
}

async function unpacked(name) {
  const packed = Uint8Array.from(atob(document.getElementById(name).textContent.trim()), (letter) => letter.charCodeAt(0));
  const stream = new Blob([packed]).stream().pipeThrough(new DecompressionStream("gzip"));
  return new Response(stream).text();
}

async function draw() {
  const script = document.createElement("script");
  script.textContent = await unpacked("plotly");
  document.head.append(script);
  const plots = JSON.parse(document.getElementById("plots").textContent);
  for (const [name, figure] of Object.entries(plots)) {
    const place = document.getElementById(name);
    const options = { responsive: true, displaylogo: false, modeBarButtonsToRemove: ["select2d", "lasso2d", "autoScale2d"] };
    await Plotly.newPlot(place, figure.data.map(fillIn), figure.layout, options);
    place.on("plotly_click", pick);
  }
  document.body.dataset.drawn = Object.keys(plots).length;
}

// Shows the lines that have all words of the search, whatever their case.
function search() {
  const words = document.getElementById("search").value.toLowerCase().split(/\s+/).filter((word) => word);
  for (const place of document.querySelectorAll("pre.lines")) {
    const all = lines[place.dataset.command];
    const found = words.length ? all.filter((line) => words.every((word) => line.toLowerCase().includes(word))) : all;
    place.textContent = found.join("\n");
    const count = place.parentElement.querySelector(".count");
    count.textContent = words.length ? `${found.length} of ${all.length} lines` : `${all.length} lines`;
    if (words.length) {
      place.parentElement.open = found.length > 0;
    }
  }
}

document.getElementById("search").addEventListener("input", search);
draw().catch((why) => {
  document.body.dataset.failed = String(why);
  for (const place of document.querySelectorAll(".plot")) {
    place.textContent = `This browser can't draw the plot: ${why}`;
  }
});
