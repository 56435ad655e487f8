const data = JSON.parse(document.getElementById("data").textContent);
const axes = data.axes.map(axis => ({ title: axis.title, rows: axis.rows.map(rowOf) }));
const rows = new Map(axes.flatMap(axis => axis.rows.map(row => [row.name, row])));
const writer = new Map(data.nodes.flatMap(node => node.outputs.map(name => [name, node])));
const tip = document.getElementById("tip");

// The packet of a stream at a time: its place in the row, or none.
function placeAt(row, time) {
    const place = row ? first(row.times, time) : -1;
    return row && row.times[place] === time ? place : -1;
}

// The time of the input set that made a packet: less the node's offset. At the ends of a loop over a list BATCH_END has the list's time as its
// value: it stands at the list's last inner time.
function setOf(node, time) {
    const ends = rows.get(node.ends);
    if (!node.ends) return time - BigInt(node.offset);
    if (!ends) return null;
    const place = node.begins ? first(ends.times, time) : ends.values.indexOf(String(time));
    if (place < 0 || place >= ends.times.length) return null;
    return node.begins ? BigInt(ends.values[place]) : ends.times[place];
}

function inputsAt(node, time) {
    const isLoop = node.calculator === "PreviousLoopbackCalculator", main = rows.get((node.inputs.find(input => input[0] === "MAIN") ?? [])[1]);
    const before = isLoop && main ? first(main.times, time) - 1 : -1;
    const lines = node.inputs.map(([label, name]) => {
        const row = rows.get(name), at = isLoop && label === "LOOP" ? (before < 0 ? null : main.times[before]) : time;
        const place = at === null ? -1 : placeAt(row, at), when = place >= 0 && at !== time ? ` (at ${shown(at)})` : "";
        const value = place >= 0 ? escaped(row.values[place]) + when : "<span class=absent>absent</span>";
        return `<tr><td>${escaped(label)}</td><td><b>${escaped(name)}</b></td><td>${value}</td></tr>`;
    });
    return `<br>${isLoop ? "the answer to MAIN at" : "from its input set at"} ${shown(time)}:<table>${lines.join("")}</table>`;
}

// Who made a packet, and of which input set.
function madeBy(name, time) {
    const node = writer.get(name);
    if (!node) return "<br>from the recording";
    const said = `<br>made by node ${node.number} <b>${escaped(node.label)}</b> (${escaped(node.calculator)}), ${escaped(node.place)}`;
    const at = node.inputs.length && isPlain(time) ? setOf(node, time) : null;
    return at === null ? said : said + inputsAt(node, at);
}

function tell(chart, event) {
    const box = chart.canvas.getBoundingClientRect(), x = event.clientX - box.left, found = chart.at(x, event.clientY - box.top);
    tip.style.display = "none";
    if (!found) return;
    const { row, place } = found, name = escaped(row.name);
    if (place >= 0) tip.innerHTML = `<b>${name}</b> at ${shown(row.times[place])}: ${escaped(row.values[place])}` + madeBy(row.name, row.times[place]);
    else if (row.bound !== DONE && x > chart.x(row.bound)) tip.innerHTML = `nothing is known of <b>${name}</b> from ${shown(row.bound)} on`;
    else return;
    tip.style.display = "block";
    tip.style.left = Math.min(event.clientX + 14, innerWidth - tip.offsetWidth - 8) + "px";
    tip.style.top = Math.min(event.clientY + 14, innerHeight - tip.offsetHeight - 8) + "px";
}

function chartOf(axis, number) {
    const part = document.getElementById("axis").content.cloneNode(true), canvas = part.querySelector("canvas");
    part.querySelector("h2").textContent = axis.title;
    canvas.id = `axis-${number}`;
    const chart = new Chart(canvas, axis.rows);
    controls(canvas, part.querySelector(".buttons"), chart);
    canvas.addEventListener("pointermove", event => { if (event.buttons) tip.style.display = "none"; else tell(chart, event); });
    canvas.addEventListener("pointerleave", () => { tip.style.display = "none"; });
    document.getElementById("axes").append(part);
    return chart;
}

const charts = axes.map(chartOf), frame = document.getElementById("picture"), graph = document.getElementById("graph");
const picture = pictureView(frame), wide = document.getElementById("wide");
controls(frame, graph.querySelector(".buttons"), picture);
// The graph in the whole window, and back.
function widen(isWide) { graph.classList.toggle("whole", isWide); wide.setAttribute("aria-pressed", isWide); frame.focus(); }
wide.addEventListener("click", () => widen(!graph.classList.contains("whole")));
window.addEventListener("keydown", event => { if (event.key === "Escape" && graph.classList.contains("whole")) widen(false); });
new ResizeObserver(() => picture.resized()).observe(frame);
new ResizeObserver(() => charts.forEach(chart => chart.draw())).observe(document.getElementById("axes"));
picture.all();
charts.forEach(chart => chart.draw());
