/**
 * The page: takes a text and a command, has them run in a worker, and shows what comes of it.
 */

import { placeOf } from "./fault.mjs";
import { readFragment, writeFragment } from "./link.mjs";
import { unpackModule } from "./packed.mjs";
import { draw } from "./picture.mjs";

/**
 * @typedef {import("../zxopt.mjs").Answer} Answer
 * @typedef {import("./worker.mjs").Command} Command
 * @typedef {import("./worker.mjs").Seen} Seen
 * @typedef {import("./worker.mjs").Told} Told
 */

/**
 * What the page was made with.
 *
 * @typedef {object} Data
 * @property {string} header the declarations of the gates for which `include` stands
 * @property {{ name: string, sentence: string, remedy: string }[]} faults by their numbers, from 1
 * @property {{ title: string, command: Command, text: string, second: string }[]} examples
 */

const SEPARATOR = "\n//// second\n";
/** A link that is longer is cut off by programs that pass it on. */
const LONGEST_LINK = 30_000;

/** What the first box is to hold. */
const LABELS = {
    circuit: "Circuit in OpenQASM 2.0",
    circuits: "First circuit in OpenQASM 2.0",
    diagram: "ZX diagram file (zxd)",
    graph: "Graph file (zxg)",
};

/**
 * What each command reads, and the ending of a file of what it writes.
 *
 * @type {Record<Command, { reads: keyof typeof LABELS, ending: string }>}
 */
const COMMANDS = {
    optimise: { reads: "circuit", ending: "qasm" },
    teleport: { reads: "circuit", ending: "qasm" },
    same: { reads: "circuits", ending: "txt" },
    compile: { reads: "diagram", ending: "qasm" },
    graph: { reads: "diagram", ending: "zxg" },
    reduce: { reads: "graph", ending: "zxg" },
    flow: { reads: "graph", ending: "txt" },
};

/**
 * What it means that the answer is no, by the first word of what was written.
 *
 * @type {Record<string, string>}
 */
const REASONS = {
    widths: "the circuits have different numbers of qubits",
    measures: "the circuits have different measurements",
    not: "nothing shows that the circuits have the same map, though they may have it",
    no: "the diagram's graph-like form has no flow, so no circuit is found for it",
    fails: "the table is no flow, since this condition fails at this vertex",
};

/**
 * The element of the page with this id.
 *
 * @template {Element} [Kind=HTMLElement]
 * @param {string} id
 * @returns {Kind}
 */
function at(id) {
    return /** @type {Kind} */ (/** @type {unknown} */ (document.getElementById(id)));
}

/** @type {HTMLSelectElement} */ const commandList = at("command");
/** @type {HTMLSelectElement} */ const exampleList = at("example");
/** @type {HTMLInputElement} */ const fileInput = at("file");
/** @type {HTMLTextAreaElement} */ const first = at("first");
/** @type {HTMLTextAreaElement} */ const second = at("second");
/** @type {HTMLTextAreaElement} */ const written = at("written");
/** @type {HTMLButtonElement} */ const stopButton = at("stop");
/** @type {NodeListOf<HTMLInputElement>} */ const flagBoxes = document.querySelectorAll("#flags input");

/** @type {Data} */
const data = JSON.parse(at("data").textContent ?? "");
const workerAddress = URL.createObjectURL(new Blob([at("worker").textContent ?? ""], { type: "text/javascript" }));

/**
 * The run that goes on, if there is one.
 *
 * @type {{ worker: Worker, timer: number } | null}
 */
let running = null;

/**
 * The module, once it's needed.
 *
 * @type {Promise<WebAssembly.Module> | null}
 */
let compiling = null;

/** The name of what is saved, without its ending. */
let fileName = "circuit";

/** @returns {Command} */
function command() {
    return /** @type {Command} */ (commandList.value);
}

/** @returns {string[]} */
function flags() {
    return Array.from(flagBoxes, (box) => (box.checked ? box.name : "")).filter(Boolean);
}

/** @param {string} text */
function say(text) {
    at("said").textContent = text;
}

// -- running -----------------------------------------------------------------------------------------------------------

function run() {
    stop();
    hideResult();
    if (first.value.trim() === "") {
        say("Put a text into the box first, or choose an example.");
        first.focus();
        return;
    }
    const began = performance.now();
    const seconds = () => ((performance.now() - began) / 1000).toFixed(1);
    const timer = window.setInterval(() => (at("seconds").textContent = `${seconds()} s`), 100);
    const worker = new Worker(workerAddress);
    worker.onmessage = ({ data: { told, circuits } }) => {
        if (told) showAnswer(told, seconds());
        else end(() => showCircuits(circuits));
    };
    worker.onerror = (error) => end(() => say(`The page failed: ${error.message}`));
    running = { worker, timer };
    stopButton.disabled = false;
    say("Running.");
    compiling ??= unpackModule(at("module").textContent ?? "");
    compiling
        .then((module) => running?.worker === worker && worker.postMessage(request(module)))
        .catch((error) => end(() => say(`This browser can't run the page's module: ${error.message}`)));
}

/**
 * @param {WebAssembly.Module} module
 * @returns {import("./worker.mjs").Request}
 */
function request(module) {
    return {
        module,
        command: command(),
        flags: Object.fromEntries(flags().map((flag) => [flag, true])),
        text: command() === "same" ? first.value + SEPARATOR + second.value : first.value,
        read: circuitsRead(),
        header: data.header,
    };
}

/**
 * The circuits that are read, each with its name.
 *
 * @returns {[string, string][]}
 */
function circuitsRead() {
    const { reads } = COMMANDS[command()];
    if (reads === "circuit") return [["read", first.value]];
    return reads === "circuits" ? [["first", first.value], ["second", second.value]] : [];
}

/** Ends a run: a call can't be interrupted, but its worker ends, and its memory is given back. */
function stop() {
    end(() => say("Stopped."));
}

/** @param {() => void} show */
function end(show) {
    if (!running) return;
    running.worker.terminate();
    window.clearInterval(running.timer);
    running = null;
    at("seconds").textContent = "";
    const hadFocus = document.activeElement === stopButton;
    stopButton.disabled = true;
    if (hadFocus) at("run").focus();
    show();
}

// -- what came of it ---------------------------------------------------------------------------------------------------

function hideResult() {
    at("fault").hidden = true;
    at("result").hidden = true;
    at("counts").hidden = true;
    at("pictures").replaceChildren();
    unmark();
}

/**
 * @param {Told} told
 * @param {string} seconds
 */
function showAnswer({ ended, answer }, seconds) {
    if (ended === "no memory") return say("Memory ran out. The program itself may have more than a page.");
    if (ended === "refused") return showFault(answer);
    const line = answer.text.split("\n", 1)[0];
    if (ended === "no") say(`Done in ${seconds} s. The answer is no, ${line}: ${REASONS[line.split(" ", 1)[0]]}.`);
    else if (command() === "same") say(`Done in ${seconds} s. Both circuits have the same map, up to a scalar.`);
    else say(`Done in ${seconds} s.`);
    written.value = answer.text;
    at("result").hidden = false;
}

/** @param {Seen[]} circuits */
function showCircuits(circuits) {
    const rows = circuits.map(({ name, counts }) => {
        const cells = [counts.t, counts.tDepth, counts.twoQubit, counts.gates, counts.qubits];
        return row(name, cells.map((count) => count.toLocaleString("en")));
    });
    document.querySelector("#counts tbody")?.replaceChildren(...rows);
    at("counts").hidden = circuits.length === 0;
    at("pictures").replaceChildren(...circuits.map(figure));
    const [read, other] = circuits;
    if (other?.name === "written") {
        at("said").append(` T gates: ${read.counts.t} read, ${other.counts.t} written.`);
    }
}

/**
 * @param {string} name
 * @param {string[]} cells
 * @returns {HTMLTableRowElement}
 */
function row(name, cells) {
    const made = document.createElement("tr");
    const head = document.createElement("th");
    head.scope = "row";
    head.textContent = name;
    made.append(head);
    for (const cell of cells) made.insertCell().textContent = cell;
    return made;
}

/**
 * @param {number} count
 * @param {string} noun
 * @returns {string}
 */
function counted(count, noun) {
    return `${count} ${noun}${count === 1 ? "" : "s"}`;
}

/**
 * @param {Seen} seen
 * @returns {HTMLElement}
 */
function figure({ name, counts, picture }) {
    const made = document.createElement("figure");
    const caption = document.createElement("figcaption");
    caption.textContent = ["first", "second"].includes(name) ? `The ${name} circuit` : `The circuit that was ${name}`;
    const shown = document.createElement("div");
    if (picture) {
        const [qubits, gates] = [counted(counts.qubits, "qubit"), counted(counts.t, "T gate")];
        const title = `${caption.textContent}: ${qubits}, ${gates}, ${counted(picture.columns, "column")}`;
        shown.className = "wide";
        shown.tabIndex = 0;
        shown.setAttribute("role", "group");
        shown.setAttribute("aria-label", caption.textContent);
        shown.append(draw(title, picture));
    } else {
        shown.textContent = "It's too large to be drawn: pictures have at most 12 qubits and 60 columns.";
    }
    made.append(caption, shown);
    return made;
}

// -- faults ------------------------------------------------------------------------------------------------------------

/** @param {Answer} answer */
function showFault({ fault, place }) {
    const { name, sentence, remedy } = data.faults[fault - 1];
    const bytes = new TextEncoder().encode(first.value + SEPARATOR).length;
    const isSecond = command() === "same" && place >= bytes;
    const box = isSecond ? second : first;
    const found = placeOf(box.value, fault, isSecond ? place - bytes : place);
    const which = command() === "same" && found ? ` of the ${isSecond ? "second" : "first"} circuit` : "";
    const where = found ? `Line ${found.line}, column ${found.column}${which}: ` : "";
    say(`The text is refused: ${sentence}.`);
    at("fault-sentence").textContent = `${where}${sentence} (fault ${fault}, ${name}).`;
    at("fault-remedy").textContent = `What to do: ${remedy}.`;
    at("fault").hidden = false;
    at("fault-line").hidden = at("show-fault").hidden = !found;
    if (!found) return;
    showLine(box.value, found);
    mark(box, found.line);
    box.setSelectionRange(found.from, found.to);
    at("show-fault").onclick = () => box.focus();
}

/**
 * Shows the line of a fault, with what is at fault marked.
 *
 * @param {string} text
 * @param {import("./fault.mjs").Place} place
 */
function showLine(text, { from, to, column }) {
    const marked = document.createElement("mark");
    marked.textContent = text.slice(from, to) || " ";
    const rest = /^[^\n]*/.exec(text.slice(to))?.[0] ?? "";
    at("fault-line").replaceChildren(text.slice(from - column + 1, from), marked, rest);
}

/**
 * Marks a line of a box, and brings it into view.
 *
 * @param {HTMLTextAreaElement} box
 * @param {number} line
 */
function mark(box, line) {
    const strip = document.createElement("div");
    strip.className = "mark";
    const style = getComputedStyle(box);
    const top = parseFloat(style.paddingTop) + parseFloat(style.lineHeight) * (line - 1);
    const follow = () => (strip.style.top = `${top - box.scrollTop + box.clientTop}px`);
    box.before(strip);
    box.scrollTop = top - box.clientHeight / 2;
    box.onscroll = follow;
    box.setAttribute("aria-invalid", "true");
    box.setAttribute("aria-describedby", "fault-sentence fault-remedy");
    follow();
}

function unmark() {
    for (const strip of document.querySelectorAll(".mark")) strip.remove();
    for (const box of [first, second]) {
        box.onscroll = null;
        box.removeAttribute("aria-invalid");
        box.setAttribute("aria-describedby", "hint");
    }
}

// -- texts in and out --------------------------------------------------------------------------------------------------

function showCommand() {
    at("first-label").textContent = LABELS[COMMANDS[command()].reads];
    at("second-part").hidden = command() !== "same";
    at("flags").hidden = command() !== "optimise";
}

/**
 * @param {File} file
 * @param {HTMLTextAreaElement} box
 */
async function takeFile(file, box) {
    box.value = await file.text();
    exampleList.value = "";
    fileName = file.name.replace(/\.[^.]*$/, "");
    // (the first word of a diagram or a graph file tells which it is)
    const { reads } = COMMANDS[command()];
    if (box.value.startsWith("zxd ") && reads !== "diagram") commandList.value = "compile";
    if (box.value.startsWith("zxg ") && reads !== "graph") commandList.value = "reduce";
    changed();
    say(`${file.name} is in the box.`);
}

/** What a user writes is no example any more, and has its faults no longer where they were. */
function edited() {
    exampleList.value = "";
    unmark();
}

/** Shows a text or a command that is new. */
function changed() {
    stop();
    hideResult();
    say("");
    showCommand();
}

async function takeFragment() {
    const linked = await readFragment(location.hash).catch(() => null);
    if (!linked) return;
    if (linked.command in COMMANDS) commandList.value = linked.command;
    if (linked.flags) for (const box of flagBoxes) box.checked = linked.flags.includes(box.name);
    first.value = linked.text;
    second.value = linked.second;
    changed();
}

async function copyLink() {
    const fragment = await writeFragment({
        command: command(),
        flags: command() === "optimise" ? flags() : null,
        text: first.value,
        second: command() === "same" ? second.value : "",
    });
    if (fragment.length > LONGEST_LINK) return say("The text is too long for a link: save it as a file.");
    history.replaceState(null, "", fragment);
    await copy(location.href, "The link is copied, and is this page's address.");
}

/**
 * @param {string} text
 * @param {string} told
 */
async function copy(text, told) {
    try {
        await navigator.clipboard.writeText(text);
        say(told);
    } catch {
        say("The browser doesn't let this page copy: select the text, and copy it by the keyboard.");
    }
}

function save() {
    const link = document.createElement("a");
    link.href = URL.createObjectURL(new Blob([written.value], { type: "text/plain" }));
    link.download = `${fileName}.${commandList.selectedOptions[0].text.split(":")[0]}.${COMMANDS[command()].ending}`;
    link.click();
    URL.revokeObjectURL(link.href);
}

function takeExample() {
    const example = data.examples[Number(exampleList.value)];
    commandList.value = example.command;
    [first.value, second.value] = [example.text, example.second];
    fileName = "circuit";
    changed();
    say(`The example is in the box: ${example.title}.`);
}

// -- what the user does ------------------------------------------------------------------------------------------------

data.examples.forEach(({ title }, number) => exampleList.add(new Option(title, String(number))));
commandList.onchange = changed;
exampleList.onchange = takeExample;
fileInput.onchange = () => fileInput.files?.[0] && takeFile(fileInput.files[0], first);
first.oninput = second.oninput = edited;
at("form").onsubmit = (event) => {
    event.preventDefault();
    run();
};
at("form").onkeydown = (event) => {
    if (event.key === "Enter" && (event.ctrlKey || event.metaKey)) run();
};
stopButton.onclick = stop;
at("link").onclick = copyLink;
at("copy").onclick = () => copy(written.value, "The text is copied.");
at("save").onclick = save;

document.ondragover = (event) => {
    event.preventDefault();
    document.body.classList.add("dropping");
};
document.ondragleave = () => document.body.classList.remove("dropping");
document.ondrop = (event) => {
    event.preventDefault();
    document.body.classList.remove("dropping");
    const file = event.dataTransfer?.files[0];
    if (file) takeFile(file, event.target === second ? second : first);
};

window.onhashchange = takeFragment;
showCommand();
takeFragment();
