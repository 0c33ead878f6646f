/**
 * Draws the picture of a circuit as SVG.
 */

/**
 * @typedef {import("./layout.mjs").Mark} Mark
 * @typedef {import("./layout.mjs").Picture} Picture
 */

const ROW = 34;
const BOX = 24;
const GAP = 8;
const LETTER = 7.5;

/**
 * An element of SVG.
 *
 * @param {string} name
 * @param {Record<string, string | number>} attributes
 * @param {(Element | string)[]} children
 * @returns {Element}
 */
function element(name, attributes, ...children) {
    const made = document.createElementNS("http://www.w3.org/2000/svg", name);
    for (const [key, value] of Object.entries(attributes)) made.setAttribute(key, String(value));
    made.append(...children);
    return made;
}

/**
 * @param {string} title what the picture shows, for who doesn't see it
 * @param {Picture} picture
 * @returns {Element}
 */
export function draw(title, { qubits, columns, marks }) {
    const names = LETTER * Math.max(0, ...qubits.map((name) => name.length)) + 2 * GAP;
    const widths = new Array(columns).fill(BOX);
    for (const { column, label } of marks) widths[column] = Math.max(widths[column], widthOf(label));
    const middles = widths.map((width, at) => names + sumOf(widths.slice(0, at)) + at * GAP + width / 2);
    const width = names + sumOf(widths) + columns * GAP + GAP;
    const height = ROW * qubits.length;
    const shown = element("svg", { role: "img", width, height, viewBox: `0 0 ${width} ${height}`, class: "circuit" });
    shown.append(element("title", {}, title));
    qubits.forEach((name, row) => {
        shown.append(
            element("text", { x: names - GAP, y: middleOf(row), class: "name" }, name),
            element("line", { x1: names, x2: width, y1: middleOf(row), y2: middleOf(row), class: "wire" }),
        );
    });
    shown.append(...marks.map((mark) => drawMark(mark, middles[mark.column])));
    return shown;
}

/** @param {number} row */
function middleOf(row) {
    return ROW * row + ROW / 2;
}

/** @param {number[]} numbers */
function sumOf(numbers) {
    return numbers.reduce((sum, number) => sum + number, 0);
}

/** @param {string} label */
function widthOf(label) {
    return Math.max(BOX, LETTER * label.length + GAP);
}

/**
 * @param {Mark} mark
 * @param {number} x
 * @returns {Element}
 */
function drawMark(mark, x) {
    const rows = [...mark.controls, ...mark.targets];
    const [first, last] = [middleOf(Math.min(...rows)), middleOf(Math.max(...rows))];
    const drawn = element("g", { class: mark.isT ? "t" : mark.kind }, element("title", {}, mark.written));
    if (mark.kind === "barrier") {
        drawn.append(element("line", { x1: x, x2: x, y1: first - ROW / 2, y2: last + ROW / 2 }));
        return drawn;
    }
    if (rows.length > 1) drawn.append(element("line", { x1: x, x2: x, y1: first, y2: last }));
    for (const row of mark.controls) drawn.append(element("circle", { cx: x, cy: middleOf(row), r: 4, class: "dot" }));
    for (const row of mark.targets) drawn.append(...drawTarget(mark.label, x, middleOf(row)));
    return drawn;
}

/**
 * @param {string} label
 * @param {number} x
 * @param {number} y
 * @returns {Element[]}
 */
function drawTarget(label, x, y) {
    if (label === "+") {
        return [
            element("circle", { cx: x, cy: y, r: 9, class: "box" }),
            element("path", { d: `M${x - 9} ${y}h18M${x} ${y - 9}v18` }),
        ];
    }
    if (label === "x") return [element("path", { d: `M${x - 6} ${y - 6}l12 12m0 -12l-12 12` })];
    const width = widthOf(label);
    return [
        element("rect", { x: x - width / 2, y: y - BOX / 2, width, height: BOX, rx: 3, class: "box" }),
        element("text", { x, y, class: "label" }, label),
    ];
}
