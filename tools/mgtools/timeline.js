// The streams over time, a canvas for each axis. Times have 64 bits, more than a number holds exactly, so they are BigInts.
const LEFT = 150, ROW = 34, TOP = 26, RIGHT = 14, MARGIN = 10;
const COLOURS = { in: "#2563eb", inner: "#6b7280", out: "#15803d" };
const SPECIAL = { Unset: 0n, Unstarted: 1n, PreStream: 2n, PostStream: 2n ** 64n - 3n, OneOverPostStream: 2n ** 64n - 2n, Done: 2n ** 64n - 1n };
const LEAST = -(2n ** 63n), FIRST = LEAST + 3n, LAST = 2n ** 63n - 4n, DONE = 2n ** 63n - 1n;
const WORDS = new Map(Object.entries(SPECIAL).map(([word, place]) => [place + LEAST, word]));
const asTime = said => said in SPECIAL ? SPECIAL[said] + LEAST : BigInt(said);
const shown = time => WORDS.get(time) ?? String(time);
const isPlain = time => time >= FIRST && time <= LAST;
const counted = (number, what) => `${number.toLocaleString("en")} ${what}${number === 1 ? "" : "s"}`;
const escaped = text => String(text).replace(/[&<>"]/g, mark => ({ "&": "&amp;", "<": "&lt;", ">": "&gt;", '"': "&quot;" })[mark]);

// A row as it is looked into: the times of its packets in one array, and their values in another.
function rowOf(said) {
    const times = BigInt64Array.from(said.packets, packet => asTime(packet[0]));
    const values = said.packets.map(packet => packet[1]), left = said.count - times.length;
    return { ...said, times, values, bound: asTime(said.bound), last: asTime(said.last), told: said.told.map(asTime), left: times.length && left > 0 ? left : 0 };
}

// The first place of a row at or after a time, by halving.
function first(times, time) {
    let low = 0, high = times.length;
    while (low < high) { const middle = low + high >> 1; if (times[middle] < time) low = middle + 1; else high = middle; }
    return low;
}

// The number below or at this one that the unit divides.
const floorTo = (number, unit) => number - ((number % unit) + unit) % unit;

// How the multiples of a step are written: large ones as 200e9, all with one exponent.
function labelling(step, isFar) {
    const zeros = String(step).match(/0*$/)[0].length, exponent = zeros < 6 ? 0 : zeros - zeros % 3;
    return time => (isFar ? "+" : "") + (time === 0n ? "0" : time / 10n ** BigInt(exponent) + (exponent ? `e${exponent}` : ""));
}

class Chart {
    constructor(canvas, rows) {
        this.canvas = canvas; this.pen = canvas.getContext("2d"); this.rows = rows; this.width = 800;
        const ends = rows.flatMap(row => [...row.told, row.bound, row.last, ...row.times.slice(0, 1)]).filter(isPlain);
        const least = ends.reduce((one, other) => one < other ? one : other, ends[0] ?? 0n);
        const most = ends.reduce((one, other) => one > other ? one : other, ends[0] ?? 1n);
        const room = Math.max(Number(most - least) / 40, 1);
        // The view begins `from` after the time `base`, and is `span` wide. So it is exact wherever it stands.
        this.whole = { base: least, from: -room, span: Number(most - least) + 2 * room };
        this.view = { ...this.whole };
    }

    get plot() { return this.width - LEFT - RIGHT - 2 * MARGIN; }
    isBeside(x) { return x < LEFT; }
    all() { this.view = { ...this.whole }; this.draw(); }
    zoom(times, x = (this.width + LEFT) / 2) {
        const share = Math.min(1, Math.max(0, (x - LEFT - MARGIN) / this.plot)), { from, span } = this.view;
        const next = Math.min(Math.max(span / times, 4), this.whole.span * 1.5);
        this.look(from + share * (span - next), next);
    }
    move(x) { this.look(this.view.from - x / this.plot * this.view.span, this.view.span); }
    // Moves the view; some of the whole stays in it.
    look(from, span) {
        const whole = Math.floor(from), base = this.view.base + BigInt(whole);
        this.view = { base, from: from - whole, span };
        const ahead = Number(base - this.whole.base) + this.view.from - this.whole.from;
        if (ahead + span / 2 < 0) this.view = { base: this.whole.base, from: this.whole.from - span / 2, span };
        if (ahead + span / 2 > this.whole.span) this.view = { base: this.whole.base, from: this.whole.from + this.whole.span - span / 2, span };
        this.draw();
    }

    // The place of a time; those before and after all others stand at the ends.
    x(time) {
        if (time < FIRST) return LEFT + 4;
        if (time > LAST) return this.width - RIGHT;
        return LEFT + MARGIN + (Number(time - this.view.base) - this.view.from) / this.view.span * this.plot;
    }
    // The time at a place, or the next whole one before it.
    timeAt(x) { return this.view.base + BigInt(Math.floor(this.view.from + (x - LEFT - MARGIN) / this.plot * this.view.span)); }
    isInside(x) { return x >= LEFT && x <= this.width - RIGHT + 1; }

    draw() {
        const scale = window.devicePixelRatio || 1, height = TOP + ROW * this.rows.length + 8, { canvas, pen } = this;
        this.width = canvas.clientWidth;
        canvas.width = this.width * scale; canvas.height = height * scale; canvas.style.height = height + "px";
        pen.setTransform(scale, 0, 0, scale, 0, 0);
        pen.clearRect(0, 0, this.width, height);
        this.drawAxis(height);
        this.rows.forEach((row, number) => this.drawRow(row, TOP + ROW * number + ROW / 2));
    }

    // Round times whose labels have room. Where the times are large beside the span, they are told from a round one on.
    ticks() {
        const { base, from, span } = this.view, begin = base + BigInt(Math.ceil(from)), end = base + BigInt(Math.floor(from + span));
        const unit = 10n ** BigInt(Math.ceil(Math.log10(span))), isFar = (begin < 0n ? -begin : begin) > 10n * unit && shown(end).length > 9;
        for (let power = 10n ** BigInt(Math.max(0, Math.floor(Math.log10(span / 50)))); ; power *= 10n)
            for (const step of [power, 2n * power, 5n * power]) {
                const start = floorTo(begin + step - 1n, step), origin = isFar ? floorTo(start, unit) : 0n;
                const labels = labelling(step, isFar), room = Number(step) / span * this.plot - 14;
                if ([start, floorTo(end, step)].some(time => this.pen.measureText(labels(time - origin)).width > room)) continue;
                const found = [];
                for (let time = start; time <= end; time += step) found.push([time, labels(time - origin)]);
                return { origin, found };
            }
    }

    drawAxis(height) {
        const { pen } = this;
        pen.font = "9.5px Helvetica, Arial"; pen.lineWidth = 1; pen.fillStyle = "#6b7280"; pen.strokeStyle = "#eceff3";
        const { origin, found } = this.ticks(), front = origin === 0n ? "" : `from ${origin} on:`;
        pen.textAlign = "left"; pen.fillText(front, 4, 12);
        pen.textAlign = "center";
        for (const [time, label] of found) {
            const x = this.x(time);
            if (x - pen.measureText(label).width / 2 > pen.measureText(front).width + 10) pen.fillText(label, x, 12);
            pen.beginPath(); pen.moveTo(x, TOP - 6); pen.lineTo(x, height - 8); pen.stroke();
        }
    }

    bar(x, y, half) { const { pen } = this; pen.beginPath(); pen.moveTo(x, y - half); pen.lineTo(x, y + half); pen.stroke(); }

    drawRow(row, y) {
        const { pen } = this, right = this.width - RIGHT, at = this.x(row.bound), end = Math.min(right, Math.max(LEFT, at)), isOpen = row.bound !== DONE;
        pen.strokeStyle = "#9ca3af"; pen.lineWidth = 1;
        pen.beginPath(); pen.moveTo(LEFT, y); pen.lineTo(end, y); pen.stroke();
        if (isOpen) { pen.fillStyle = "rgba(254,202,202,.6)"; pen.fillRect(end, y - 9, right - end, 18); }
        if (row.left) this.drawLeft(row, y);
        pen.strokeStyle = "#2563eb"; pen.setLineDash([3, 2]);
        let last = 0;
        for (const x of row.told.map(time => this.x(time))) if (this.isInside(x) && x - last >= 1) { this.bar(x, y, 9); last = x; }
        pen.setLineDash([]); pen.lineWidth = 2; pen.strokeStyle = isOpen ? "#dc2626" : "#374151";
        if (this.isInside(at)) this.bar(end, y, 10);
        pen.textAlign = "center";
        this.drawPackets(row, y);
        pen.textAlign = "left"; pen.fillStyle = "#1f2937"; pen.font = "bold 11px Helvetica, Arial";
        pen.fillText(row.name.length > 22 ? row.name.slice(0, 21) + "…" : row.name, 4, y + 1);
        pen.font = "9.5px Helvetica, Arial"; pen.fillStyle = "#6b7280";
        pen.fillText(row.left ? `${row.times.length.toLocaleString("en")} of ${counted(row.count, "packet")}` : counted(row.count, "packet"), 4, y + 12);
    }

    // Where packets are left out: after the last one that is shown.
    drawLeft(row, y) {
        const { pen } = this, begin = Math.max(LEFT, this.x(row.times[row.times.length - 1]) + 5), end = Math.min(this.width - RIGHT, this.x(row.last));
        if (begin >= end) return;
        pen.fillStyle = "#e5e7eb"; pen.fillRect(begin, y - 7, end - begin, 14);
        const said = counted(row.left, "packet") + " left out";
        pen.fillStyle = "#4b5563"; pen.textAlign = "left"; pen.font = "9.5px Helvetica, Arial";
        if (pen.measureText(said).width + 8 < end - begin) pen.fillText(said, begin + 4, y + 3.5);
    }

    // One dot in each pixel that has a packet, and the values that have room. A packet at PreStream or PostStream is alone.
    drawPackets(row, y) {
        const { pen } = this, { times, values } = row;
        let free = LEFT, at = times.length && isPlain(times[0]) ? first(times, this.timeAt(LEFT)) : 0;
        pen.font = "9.5px Helvetica, Arial";
        while (at < times.length && this.isInside(this.x(times[at]))) {
            const x = this.x(times[at]), value = values[at];
            pen.fillStyle = COLOURS[row.kind]; pen.beginPath(); pen.arc(x, y, 3.6, 0, 7); pen.fill();
            const text = value.length > 14 ? value.slice(0, 13) + "…" : value, half = pen.measureText(text).width / 2;
            if (x - half > free) { pen.fillStyle = "#1f2937"; pen.fillText(text, x, y - 7); free = x + half + 4; }
            at = Math.max(at + 1, first(times, this.timeAt(x + 1)));
        }
    }

    // What stands at a place of the canvas: a row, and the place of its packet, or none.
    at(x, y) {
        const row = this.rows[Math.floor((y - TOP) / ROW)];
        if (!row || x < LEFT) return null;
        const from = Math.max(0, Math.min(first(row.times, this.timeAt(x - 9)), row.times.length - 1) - 1);
        let nearest = -1, distance = 8;
        for (let place = from; place < row.times.length && (place < from + 3 || this.x(row.times[place]) < x + 9); place++) {
            const away = Math.abs(this.x(row.times[place]) - x);
            if (away < distance) { nearest = place; distance = away; }
        }
        return { row, place: nearest };
    }
}
