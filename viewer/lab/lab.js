// The laboratory: the viewer with the program inside. scripts/lab puts it behind the viewer's own
// script, whose names (`world`, `now`, `show`, `open`, `make`, `element`) it uses. An experiment is a
// program, a number of ranks, and the lines of an events text. Each change of it plays all anew, by
// `ftmpi world --json`: the engine keeps nothing from call to call.
"use strict";

// ---- the engine, in workers

const PROGRAM = "program.rank";
const EVENTS = "it.events";

// A worker gets the engine once, and then calls: it answers each by its number. What the program
// writes to standard error meanwhile, such as the progress of a search, comes at once.
const WORKER = `
  let compiled;
  onmessage = async ({ data }) => {
    try {
      if (data.engine) {
        compiled = await WebAssembly.compile(data.engine);
        postMessage({ isReady: true });
        return;
      }
      const text = (bytes) => new TextDecoder().decode(bytes);
      const hear = data.isHeard ? (piece) => postMessage({ heard: text(piece) }) : null;
      const { status, out, err } = rattleHost.run(compiled, data.words, data.files, { hear });
      postMessage({ number: data.number, status, out: text(out), err: text(err) });
    } catch (error) {
      postMessage({ number: data.number, status: -1, out: "", err: "the engine broke down: " + error });
    }
  };`;

/** The program as WebAssembly. */
const engineBytes = (async () => {
  const packed = Uint8Array.from(atob(element("engine").textContent.trim()), (it) => it.charCodeAt(0));
  return new Response(new Blob([packed]).stream().pipeThrough(new DecompressionStream("gzip"))).arrayBuffer();
})();

/** A worker that runs the program, one call after another. */
class Engine {
  constructor(hear = null) {
    this.number = 0;
    this.waiting = new Map();
    this.isHeard = hear !== null;
    this.isStopped = false;
    this.worker = new Worker(URL.createObjectURL(new Blob([element("host").textContent, WORKER], { type: "text/javascript" })));
    this.ready = new Promise((ready) => {
      this.worker.onmessage = ({ data }) => {
        if (data.isReady) {
          ready();
        } else if (data.heard !== undefined) {
          hear(data.heard);
        } else {
          const then = this.waiting.get(data.number);
          this.waiting.delete(data.number);
          then(data);
        }
      };
    });
    engineBytes.then((bytes) => this.worker.postMessage({ engine: bytes }));
  }

  /** What the program answers: `status`, `out` and `err`. */
  async call(words, files) {
    await this.ready;
    this.number += 1;
    const number = this.number;
    return new Promise((then) => {
      this.waiting.set(number, then);
      this.worker.postMessage({ number, words: ["ftmpi", ...words], files, isHeard: this.isHeard });
    });
  }

  /** Ends it in the middle of a call, which is never answered. */
  stop() {
    this.isStopped = true;
    this.worker.terminate();
  }
}

// ---- the experiment

const stored = JSON.parse(element("lab-data").textContent);
const engine = new Engine();
// The first future is `futures[0]`; `current` is that which is shown. `at` is the step behind which
// it parted from another one.
let futures = [{ lines: [], at: 0 }];
let current = 0;
// How the experiment is called, and the choice that is open: none for a program of one's own.
let called = "";
let chosen = "";
// The experiment with a program of one's own, while a choice is open.
let own = null;
// Counts the calls for a world: an answer to an older one is dropped.
let turn = 0;

const source = () => element("source").value;
const ranks = () => Math.max(1, Math.min(16, Number.parseInt(element("count").value, 10) || 1));
const lines = () => futures[current].lines;
const isEvent = (line) => line.trim() !== "" && !line.trimStart().startsWith("#");
const countOf = (of) => of.filter(isEvent).length;
const asText = (of) => of.map((line) => `${line}\n`).join("");
const linesIn = (text) => text.split("\n").filter((line) => line !== "");
const files = () => ({ [PROGRAM]: source(), [EVENTS]: asText(lines()) });
const events = (of) => linesIn(of).filter(isEvent);

/** Calls the program over the experiment as it is, and says in the page that it works. */
async function ftmpi(words, given = files()) {
  const began = performance.now();
  element("busy").textContent = `ftmpi ${words[0]} ..`;
  const done = await engine.call(words, given);
  element("busy").textContent = done.status < 0 ? done.err : `ftmpi ${words[0]}: ${(performance.now() - began).toFixed(0)} ms`;
  return done;
}

/** Plays the experiment and shows it at a step. Answers whether there is a world. */
async function playAll(at) {
  // (what was typed just now is played with it)
  clearTimeout(typing);
  turn += 1;
  const mine = turn;
  const done = await ftmpi(["world", "--json", "--ranks", String(ranks()), PROGRAM, EVENTS]);
  if (mine !== turn) {
    return false;
  }
  const title = `ftmpi laboratory: ${called || "your program"}`;
  document.body.classList.toggle("stale", done.status !== 0);
  if (done.status === 0) {
    sayFault("");
    open(done.out, title, at);
    showFutures();
  } else {
    element("title").textContent = title;
    await explain();
    showActs();
  }
  await keep();
  // (the address holds it too: what follows may begin)
  document.body.dataset.turn = String(mine);
  return done.status === 0;
}

/** How many lines of the events stand up to the step that is shown. */
const linesUpTo = (step) => (step === 0 ? 0 : world.events[step - 1].line);

/**
 * Makes events happen behind the step that is shown, and goes to the last of them. What lay behind
 * that step stays, as another future.
 */
async function happen(...more) {
  const cut = linesUpTo(now);
  const behind = lines().slice(cut).filter(isEvent);
  if (more.every((event, index) => behind[index] === event)) {
    go(now + more.length);
    return;
  }
  const next = lines().slice(0, cut).concat(more);
  const to = now + more.length;
  if (behind.length > 0) {
    futures.push({ lines: next, at: now });
    current = futures.length - 1;
  } else {
    futures[current] = { ...futures[current], lines: next };
  }
  await playAll(to);
}

/** Begins anew. What has happened stays, as another future. */
async function beginAnew() {
  if (countOf(lines()) > 0) {
    futures.push({ lines: [], at: 0 });
    current = futures.length - 1;
  }
  return playAll(0);
}

/** Begins anew with these events, and no other future. */
async function startWith(of, at = 0) {
  futures = [{ lines: of, at: 0 }];
  current = 0;
  return playAll(at);
}

/** Asks for events that go on from the step that is shown, and makes them happen. */
async function lead(words) {
  const given = { ...files(), [EVENTS]: asText(lines().slice(0, linesUpTo(now))) };
  const done = await ftmpi(["catch-up", ...words, "--ranks", String(ranks()), PROGRAM, EVENTS], given);
  if (done.status !== 0) {
    element("busy").textContent = done.err.trim();
    return;
  }
  const more = events(done.out);
  if (words.includes("--to-the-end")) {
    ended = [experimentUpTo(now), ...more].join("\n");
  }
  if (more.length > 0) {
    await happen(...more);
    revealDiagram();
  } else {
    element("busy").textContent = "nothing is to be done";
    showHint();
  }
}

// The experiment behind which no rank can go on, as *Run to the end* found it.
let ended = "";

const experimentUpTo = (step) => [ranks(), source(), ...lines().slice(0, linesUpTo(step)).filter(isEvent)].join("\n");

// ---- what to do next: a sentence where no comment stands

function showHint() {
  if (element("note").textContent === "" && !document.body.classList.contains("stale")) {
    element("note").replaceChildren(...inline(hintAt(world.steps[now], now === world.events.length)));
  }
}

/** What a reader may do at a step, which is the last one or not. */
function hintAt({ ranks: all }, isLast) {
  const down = all.findIndex((it) => it.phase === "down");
  if (down >= 0) {
    return `Rank ${down} is down: *Recover* brings every rank back. Or click \`restart ${down}\`, and go on by single events.`;
  }
  return isLast ? hintAtLast(all) : hintBefore(world.events.length - now);
}

/** At a step that so many come after. */
function hintBefore(after) {
  return now === 0 ? "Go on by *>* or the right arrow key. Or click another event: it happens here."
    : `Click *crash* at a rank, and it crashes here. ${after === 1 ? "The event" : `The ${after} events`} after this step ${after === 1 ? "is" : "are"} kept.`;
}

function hintAtLast(all) {
  const crashed = world.events.some((it) => it.parts.kind === "crash");
  const waits = all.findIndex((it) => !isOver(it));
  if (waits < 0) {
    return crashed ? "It has ended, and printed what one run without crashes prints. *All outcomes* lists what such runs print."
      : "It has ended. Go back by *<* or by a click in the diagram, and crash a rank there.";
  }
  if (ended === experimentUpTo(now)) {
    return `It ends here: rank ${waits} waits for a message that doesn't come.`;
  }
  const behind = all.findIndex((it) => !isBack(it));
  if (behind >= 0) {
    return `Rank ${behind} makes its acts again: *Recover* brings it back to where it was.`;
  }
  if (crashed) {
    return "Every rank is back. *Run to the end* goes on from here.";
  }
  return now === 0 ? "Change the program as you like. *Run to the end* runs it. Or click one event after another."
    : "*Run to the end* goes on from here. Or click one event after another.";
}

/** Whether a rank is up and has made each act of its own that had passed. */
const isBack = ({ phase, clock, passed }) => phase === "running" && clock >= passed;

const isOver = ({ wants, waiting }) => ["halted", "fault"].includes(wants.kind) && waiting.length === 0;

// ---- which events may happen at a step (docs/WORLDS.md): from the members of the world's objects

// What each kind of event means.
const KINDS = [
  ["step", "the rank makes one step of its program"],
  ["put", "its next frame goes on the wire: a packet, a request for packets (ask), or a notice that a checkpoint has them (kept)"],
  ["arrive", "a frame on the wire comes to the rank: any of them, in any order, and again"],
  ["store", "the event logger stores a determinant, such as which message was received"],
  ["ack", "the logger's acknowledgment comes back"],
  ["release", "a send or a line that waited for it goes out"],
  ["image", "a checkpoint of the rank is stored: it begins there after a crash"],
  ["crash", "the rank loses everything but what is stored"],
  ["restart", "it begins again, at its last image if there is one, and replays the determinants that are stored"],
];

/**
 * The events that aren't refused at a step, by rank: each with its kind, its text, and what it is
 * about. Frames that haven't arrived come first, so many of them, and then others, newest first; such
 * an event is `later`, and it is `again` if its frame has arrived before.
 */
function nextEvents(step, most = Infinity, others = Infinity) {
  const flying = [...standingAt(world, step).flying];
  return world.steps[step].ranks.map((rank, number) => {
    const found = [];
    const put = (kind, numbers, about, more = {}) => found.push({ kind, text: [kind, ...numbers].join(" "), about, ...more });
    if (rank.phase === "down") {
      put("restart", [number], rank.image ? "from its image" : "from the beginning");
      return found;
    }
    put("step", [number], rank.line === undefined ? wantsWords(rank.wants) : `line ${rank.line}: ${wantsWords(rank.wants)}`);
    for (const it of rank.next) {
      put("put", [number, it.destination], nextWords(it));
    }
    if (rank.phase === "running") {
      putGate(put, number, rank.waiting);
    }
    const first = flying.filter((it) => it.destination === number).slice(0, most);
    const arrive = (frame, more) => put("arrive", [frame.source, number, frame.index], frameWords(frame), more);
    first.forEach((frame) => arrive(frame));
    newestFor(number, step, others, new Set(first)).forEach((frame) => arrive(frame, { later: true, again: frame.arrivals.some((it) => it.at <= step) }));
    put("crash", [number], "loses all that isn't stored", { harms: true });
    return found;
  });
}

/** The newest frames for a rank that were put up to a step, so many at most, and without these. */
function newestFor(rank, step, most, without) {
  const [all, found] = [world.framesFor[rank], []];
  for (let index = countUpTo(all, step) - 1; index >= 0 && found.length < most; index -= 1) {
    if (!without.has(all[index])) {
      found.push(all[index]);
    }
  }
  return found;
}

/** How many of these frames, which stand in the order in which they were put, were put up to a step. */
function countUpTo(frames, step) {
  let [low, high] = [0, frames.length];
  while (low < high) {
    const middle = (low + high) >> 1;
    [low, high] = frames[middle].put <= step ? [middle + 1, high] : [low, middle];
  }
  return low;
}

/** What may happen at the gate of a rank that doesn't replay. */
function putGate(put, number, waiting) {
  const isEffect = (it) => it.stored === undefined;
  const [first] = waiting;
  // an event behind a send or a line isn't stored before that is released
  const effect = waiting.findIndex(isEffect);
  const unstored = waiting.slice(0, effect < 0 ? waiting.length : effect).find((it) => it.stored === false);
  if (unstored) {
    put("store", [number], determinantWords(unstored));
  }
  if (first && first.stored === true) {
    put("ack", [number], determinantWords(first));
  }
  if (first && isEffect(first)) {
    put("release", [number], determinantWords(first));
  }
  if (!first) {
    put("image", [number], "stores a checkpoint");
  }
}

// So many frames that haven't arrived have a button; the newest of all others are in a list.
const MOST_BUTTONS = 6;

function showActs() {
  const { activeElement: active } = document;
  const [focused, row] = [active.dataset.event, active.closest(".row")];
  const place = [...element("acts").children].indexOf(row);
  const isStale = document.body.classList.contains("stale");
  for (const id of ["to-end", "catch-up", "anew", "explore", "judge", "runs", "canonical", "to-c"]) {
    element(id).disabled = isStale;
  }
  if (isStale || !world) {
    const words = `The program has a fault: mend it to go on.${world ? " The world that is shown is of the last text without a fault." : ""}`;
    // (no step was ever shown, if the page was opened with the fault)
    (element("note") || element("now")).textContent = words;
    element("acts").replaceChildren(make("p", { class: "empty" }, words));
    return;
  }
  element("acts").replaceChildren(...nextEvents(now, MOST_BUTTONS, MOST_FRAMES).map(rowOf));
  showLeading(world.steps[now]);
  showHint();
  // (the focus stays at its event, or else at its rank)
  if (place >= 0) {
    const again = element("acts").querySelector(`[data-event="${focused}"]`);
    (again || element("acts").children[place].querySelector("button")).focus({ preventScroll: true });
  }
}

/** What is to be done next stands out: the next step of a world that is explained, or at its last step
 * that the ranks come back, or else that the program runs on. */
function showLeading({ ranks: all, event }) {
  const isLast = now === world.events.length;
  const areBack = all.every(isBack);
  const isExplained = !event || commentBefore(event.line) !== "";
  element("forward").classList.toggle("main", !isLast && isExplained);
  const isEnd = isLast && areBack && (all.every(isOver) || ended === experimentUpTo(now));
  element("catch-up").classList.toggle("main", isLast && !areBack);
  element("to-end").classList.toggle("main", isLast && areBack && !isEnd);
  // what would do nothing can't be clicked
  const { activeElement: active } = document;
  element("catch-up").disabled = areBack;
  element("to-end").disabled = isEnd;
  element("anew").disabled = world.events.length === 0;
  if (active.disabled && active.closest("#leading")) {
    (element("leading").querySelector(".main") || element("back")).focus();
  }
}

/** What a rank is at, in a word or two: a program that has ended is still running. */
function stateOf({ phase, wants }) {
  const isOut = phase === "running" && ["halted", "fault"].includes(wants.kind);
  return !isOut ? phase : wants.kind === "halted" ? "halted" : `fault ${wants.number}`;
}

function rowOf(found, number) {
  const state = stateOf(world.steps[now].ranks[number]);
  const rest = found.filter((it) => it.later);
  const row = make("div", { class: "row", role: "group", "aria-label": `Rank ${number}` },
    make("h3", {}, `Rank ${number}`, make("small", {}, state)), ...found.filter((it) => !it.later).map(buttonOf));
  if (rest.length > 0) {
    const list = make("select", { "aria-label": `More frames for rank ${number}` },
      ...rest.map((it) => make("option", { value: it.text }, `${it.text}${it.again ? " again" : ""}: ${it.about}`)));
    const arrive = make("button", { type: "button" }, "arrives");
    arrive.addEventListener("click", () => happen(list.value));
    row.append(make("span", { class: "later" }, list, arrive));
  }
  return row;
}

function buttonOf({ text, about, harms }) {
  const [, title] = KINDS.find(([kind]) => kind === text.split(" ")[0]);
  const button = make("button", { type: "button", "data-event": text, title, ...(harms ? { class: "harm" } : {}) },
    make("code", {}, text), make("small", {}, about));
  button.addEventListener("click", () => happen(text));
  return button;
}

function showFutures() {
  const several = futures.length > 1;
  element("futures").replaceChildren(...(several ? futures : []).map((one, index) => {
    const parted = index === 0 ? "" : `, another from step ${one.at} on`;
    const button = make("button", { type: "button", ...(index === current ? { "aria-current": "true" } : {}) },
      `Future ${index + 1}: ${counted(countOf(one.lines), "event")}${parted}`);
    button.addEventListener("click", () => {
      current = index;
      playAll(Math.min(now, countOf(one.lines)));
    });
    return button;
  }));
}

// ---- the editor

/** Where the fault is that `ftmpi explain` prints: its line, and the part of it that is marked, if one is. */
function placeOf(explained) {
  const [first, shown, mark] = explained.split("\n");
  const line = /^line (\d+): /.exec(first);
  if (!line) {
    return null;
  }
  const number = Number(line[1]);
  const text = source().split("\n")[number - 1] || "";
  const part = (shown || "").slice(2);
  const begin = part.length === text.length ? 0 : text.indexOf(part.replace(/^\.\.|\.\.$/g, ""));
  const isMarked = /^ *\^+$/.test(mark || "") && begin >= 0;
  const from = begin + (mark || "").indexOf("^") - 2;
  return { number, part: isMarked ? [from, from + mark.trim().length] : null };
}

/** Says what is wrong with the program, as `ftmpi explain` does, and marks the place. Empty: nothing. */
function sayFault(explained) {
  element("explained").hidden = explained === "";
  element("explained").textContent = explained.trimEnd();
  element("source").setAttribute("aria-invalid", String(explained !== ""));
  showSheet(explained === "" ? null : placeOf(explained));
}

// What was found to race, by line, is marked in the margin.
let raced = new Set();

/** The line numbers, and behind the text a mark where a fault is. */
function showSheet(fault) {
  const text = source().split("\n");
  element("gutter").replaceChildren(...text.flatMap((_, index) => {
    const kind = fault && fault.number === index + 1 ? "bad" : raced.has(index + 1) ? "raced" : "";
    return [make("span", kind ? { class: kind } : {}, String(index + 1)), "\n"];
  }), "\n\n");
  const back = text.flatMap((line, index) => {
    if (!fault || fault.number !== index + 1) {
      return [`${line}\n`];
    }
    const [from, to] = fault.part || [0, line.length];
    return [line.slice(0, from), make("mark", { id: "fault-place" }, line.slice(from, to) || " "), `${line.slice(to)}\n`];
  });
  element("backdrop").replaceChildren(...back);
  scrollSheet();
}

function scrollSheet() {
  const { scrollTop, scrollLeft } = element("source");
  element("gutter").scrollTop = scrollTop;
  element("backdrop").scrollTop = scrollTop;
  element("backdrop").scrollLeft = scrollLeft;
}

async function explain() {
  const { status, out, err } = await ftmpi(["explain", "--ranks", String(ranks()), "--events", EVENTS, PROGRAM]);
  sayFault(status === 0 ? "" : out || err);
}

let typing;

/** Plays a changed program, when its reader pauses. Its events stay if none is refused by it that wasn't. */
function typed() {
  raced = new Set();
  if (source() !== (choices.get(chosen) || {}).source) {
    called = "your program";
    showChoice("");
  }
  showSheet(null);
  clearTimeout(typing);
  typing = setTimeout(async () => {
    const refused = () => (world ? world.events.filter((it) => it.reply === "refused").length : 0);
    const before = refused();
    futures = [futures[current]];
    current = 0;
    if (await playAll(Math.min(now, countOf(lines()))) && refused() > before) {
      await startWith([]);
    }
  }, 250);
}

/** Puts a text into the editor, so that it can be undone there. */
function write(text) {
  element("source").focus();
  element("source").select();
  if (!document.execCommand("insertText", false, text)) {
    element("source").value = text;
    typed();
  }
}

// ---- answers: all outcomes, judge, C, events

// The button that asked for the answer that is shown.
let asking = null;

/** Shows an answer below the editor. It gets the focus of the button that asked, which has it again at the end. */
function answer(title, ...parts) {
  const { activeElement: active } = document;
  const close = make("button", { type: "button" }, "Close");
  close.addEventListener("click", () => {
    element("answer").hidden = true;
    (asking || document.body).focus();
  });
  asking = active.closest("#asks button") || asking;
  const isAsked = active === document.body || active.closest("#asks, #answer") !== null;
  element("answer").hidden = false;
  element("answer").replaceChildren(make("div", { class: "bar" }, make("h2", {}, title), close), ...parts);
  element("answer").scrollIntoView({ block: "nearest" });
  if (isAsked) {
    element("answer").focus({ preventScroll: true });
  }
}

function copyButton(text) {
  const button = make("button", { type: "button" }, "Copy");
  button.addEventListener("click", () => copy(text(), button));
  return button;
}

async function copy(text, button) {
  const said = button.textContent;
  try {
    await navigator.clipboard.writeText(text);
    button.textContent = "Copied";
  } catch {
    button.textContent = "Not allowed here: select and copy it";
  }
  setTimeout(() => { button.textContent = said; }, 2000);
}

const ALL = "Proved: a complete search has every outcome of the program, and no other. And whatever crashes, the ranks "
  + "print one of these, or a beginning of it.";
const NOT_ALL = "There may be other outcomes: the search stopped before it had looked at all.";

/** A line for each receive or probe that had several answers. */
function raceWords({ rank, line, probe, sources, miss }) {
  const from = sources.length > 1 ? `${sources.slice(0, -1).join(", ")} or ${sources[sources.length - 1]}` : sources.join("");
  return `rank ${rank} at line ${line} ${probe ? "finds one from" : "takes from"} ${from}${miss ? ", or none" : ""}`;
}

const endWords = ({ end, fault, name: of }) => (fault === undefined ? end : `${end} ${fault} ${of}`);

/** Looks for all outcomes in a worker of its own, which can be stopped. */
async function explore() {
  const [program, count] = [source(), String(ranks())];
  const progress = make("p", { id: "progress", role: "status" }, "looking at runs ..");
  const stop = make("button", { type: "button", id: "stop" }, "Stop");
  // (a line comes in pieces)
  let [looked, begun] = ["", ""];
  const search = new Engine((heard) => {
    begun += heard;
    const whole = begun.split("\n");
    begun = whole.pop();
    looked = whole.pop() || looked;
    progress.textContent = `${looked || "looking at runs"} ..`;
  });
  const stopped = new Promise((then) => {
    stop.addEventListener("click", () => { search.stop(); then(null); });
  });
  answer("All outcomes", make("div", { class: "bar" }, stop, progress));
  const began = performance.now();
  const done = await Promise.race([search.call(["explore", "--json", "--ranks", count, PROGRAM], { [PROGRAM]: program }), stopped]);
  search.stop();
  const took = `${((performance.now() - began) / 1000).toFixed(1)} s`;
  if (!done) {
    answer("All outcomes", make("p", { id: "explored", "data-complete": "stopped" }, `Stopped after ${took}${looked ? `: ${looked}` : ""}. ${NOT_ALL}`));
  } else if (done.out === "") {
    answer("All outcomes", make("p", { id: "explored", class: "no" }, done.err));
  } else {
    showOutcomes(JSON.parse(done.out), program, count, took);
  }
}

function showOutcomes(found, program, count, took) {
  const head = make("tr", {}, ...["Outcome", "World", ...found.outcomes[0].ranks.map((it) => `Rank ${it.rank}`)].map((it) => make("th", { scope: "col" }, it)));
  const rows = found.outcomes.map((one) => {
    const button = make("button", { type: "button", "data-outcome": String(one.outcome), title: "Open as a world" }, "Open");
    button.addEventListener("click", () => openOutcome(one.outcome, program, count));
    return make("tr", {}, make("th", { scope: "row" }, String(one.outcome)), make("td", {}, button),
      ...one.ranks.map((it) => make("td", {}, make("code", {}, it.lines.join(" ")), it.lines.length ? ", " : "", endWords(it))));
  });
  raced = new Set(source() === program ? found.races.map((it) => it.line) : []);
  showSheet(null);
  answer(`All outcomes: ${found.outcomes.length}${found.complete ? "" : " so far"}`,
    make("p", { id: "explored", "data-complete": String(found.complete) },
      `${found.complete ? "Complete" : "Stopped"}: ${counted(found.runs, "run")} looked at in ${took}. ${found.complete ? ALL : NOT_ALL}`),
    make("p", { id: "races" }, found.races.length === 0 ? "No receive and no probe had several answers." : "Races: ",
      ...found.races.flatMap((it, index) => [index > 0 ? "; " : "", make("span", {}, raceWords(it))])),
    make("div", { class: "wide-table" }, make("table", { id: "outcomes" }, make("caption", {}, "What each rank prints, and how it ends"), make("thead", {}, head), make("tbody", {}, ...rows))));
}

/** Opens a run of an outcome as a world. */
async function openOutcome(outcome, program, count) {
  const done = await ftmpi(["explore", "--events", String(outcome), "--ranks", count, PROGRAM], { [PROGRAM]: program });
  if (done.out === "") {
    element("busy").textContent = done.err.trim();
  } else {
    await openEvents(events(done.out), program, Number(count));
  }
}

/** Opens events of a program as a world, as another future if there is one. Shows their end. */
async function openEvents(opened, program, count) {
  if (source() !== program || ranks() !== count) {
    element("busy").textContent = "the program isn't the one whose events these are";
  } else if (countOf(lines()) > 0) {
    futures.push({ lines: opened, at: 0 });
    current = futures.length - 1;
    await playAll(opened.length);
  } else {
    await startWith(opened, opened.length);
  }
  revealDiagram();
}

/** Scrolls to the diagram, if it isn't seen whole; or only if it is further down. */
function revealDiagram(isDown = false) {
  const { top, bottom } = element("diagram").getBoundingClientRect();
  if (bottom > innerHeight || !isDown && top < document.querySelector("header").offsetHeight) {
    element("diagram-head").scrollIntoView({ block: "start" });
  }
}

async function showC() {
  const { out, err } = await ftmpi(["c", PROGRAM]);
  const text = make("pre", { class: "code", id: "c-text", tabindex: "0" }, out || err);
  answer("The program in C", make("div", { class: "bar" }, copyButton(() => out)), text);
}

function showEventsText() {
  const text = make("textarea", { id: "events-text", rows: "10", spellcheck: "false", "aria-label": "Events" });
  text.value = asText(lines());
  const again = make("button", { type: "button", class: "main" }, "Play these");
  again.addEventListener("click", () => openEvents(text.value.replace(/\n+$/, "").split("\n"), source(), ranks()));
  answer("Events", make("div", { class: "bar" }, again, copyButton(() => text.value)), text);
}

async function canonical() {
  const { status, out } = await ftmpi(["check", PROGRAM]);
  if (status === 0) {
    write(out);
  }
}

// ---- the address and the storage: both hold the experiment

const KEY = "ftmpi laboratory";
// A longer address isn't carried by all that carry addresses.
const LONGEST = 8000;

async function streamed(bytes, through) {
  return new Uint8Array(await new Response(new Blob([bytes]).stream().pipeThrough(through)).arrayBuffer());
}

/** A text as a part of an address: deflated, in base64 of the kind that addresses may have. */
async function packed(text) {
  const bytes = await streamed(new TextEncoder().encode(text), new CompressionStream("deflate-raw"));
  return btoa(String.fromCharCode(...bytes)).replaceAll("+", "-").replaceAll("/", "_").replaceAll("=", "");
}

async function unpacked(part) {
  const bytes = Uint8Array.from(atob(part.replaceAll("-", "+").replaceAll("_", "/")), (it) => it.charCodeAt(0));
  return new TextDecoder().decode(await streamed(bytes, new DecompressionStream("deflate-raw")));
}

/** The experiment, with its futures. */
const whole = () => ({ source: source(), ranks: ranks(), lines: lines(), called, futures, current });

async function keep() {
  const it = whole();
  const part = await packed(JSON.stringify({ ...it, futures: undefined, current: undefined }));
  const isLong = part.length > LONGEST;
  experiment = isLong ? "" : `;${part}`;
  element("link").disabled = isLong;
  element("link").title = isLong ? "The experiment is too long for an address: copy its events as text" : "An address that holds the program and the events";
  history.replaceState(null, "", `#${now}${experiment}`);
  try {
    localStorage.setItem(KEY, JSON.stringify({ ...it, own }));
  } catch {
    // (a page from disk may have no storage)
  }
}

/** The experiment that the browser keeps, or none. */
function keptHere() {
  try {
    return experimentIn(localStorage.getItem(KEY) || "");
  } catch {
    // (a page from disk may have no storage)
    return null;
  }
}

/** The experiment in the address, or else the one that was kept; or none. If both are the same, with its futures. */
async function kept(local) {
  const part = location.hash.split(";")[1];
  const there = experimentIn(part ? await unpacked(part).catch(() => "") : "");
  return part && !(local && there && ["source", "ranks", "lines"].every((it) => isSame(local[it], there[it]))) ? there : local;
}

const isSame = (one, other) => JSON.stringify(one) === JSON.stringify(other);

/** The experiment that a text holds, or none. */
function experimentIn(text) {
  try {
    const it = JSON.parse(text);
    return typeof it.source === "string" && Array.isArray(it.lines) ? it : null;
  } catch {
    return null;
  }
}

/** Whether futures are kept with an experiment. */
function areFutures({ futures: all, current: which, lines: of }) {
  return Array.isArray(all) && all.every((one) => Array.isArray(one.lines) && Number.isInteger(one.at)) && isSame((all[which] || {}).lines, of);
}

async function restore() {
  const local = keptHere();
  const it = await kept(local);
  if (!it) {
    return false;
  }
  // a program of one's own stays, if the address has another experiment
  own = local && it !== local && choiceOf(local) === "" ? { ...local, own: null } : local && experimentIn(JSON.stringify(local.own || null));
  await reopen(it, stepInAddress());
  return true;
}

/** The choice that an experiment came from; none for a program of one's own. */
const choiceOf = (it) => ([...choices].find(([, one]) => one.name === it.called && one.source === it.source) || [""])[0];

/** Opens an experiment that was kept, at a step. */
async function reopen(it, at) {
  [called, element("source").value, element("count").value] = [String(it.called), it.source, String(it.ranks)];
  showChoice(choiceOf(it));
  futures = areFutures(it) ? it.futures : [{ lines: it.lines.map(String), at: 0 }];
  current = areFutures(it) ? it.current : 0;
  return playAll(at);
}

// ---- what there is to choose from

// The choices by the value of their options: each opens an experiment.
const choices = new Map();

function listChoices() {
  const list = element("choice");
  const group = (label, items) => {
    const box = make("optgroup", { label });
    for (const { value, words, experiment: it } of items) {
      choices.set(value, it);
      box.append(make("option", { value }, words));
    }
    list.append(box);
  };
  list.append(make("option", { value: "" }, "your own program"));
  group("Lessons", stored.lessons.map((it, index) => ({
    value: `lesson ${index}`, words: it.title,
    experiment: { name: it.title, source: it.program, ranks: it.ranks, lines: it.events.trimEnd().split("\n"), about: it.about },
  })));
  for (const of of new Set(stored.programs.map((it) => it.group))) {
    group(of === "The manual" ? of : `Programs: ${of.toLowerCase()}`, stored.programs.filter((it) => it.group === of).map((it) => ({
      value: it.name, words: `${nameOf(it.name)}: ${it.about.replaceAll("`", "")}`,
      experiment: { name: nameOf(it.name), source: it.text, ranks: it.ranks, lines: [], about: it.about },
    })));
  }
  group("Worlds of the examples", stored.worlds.map((it) => ({
    value: it.name, words: `${nameOf(it.name)}: ${it.about}`,
    experiment: { name: nameOf(it.name), source: it.program, ranks: it.ranks, lines: it.events.trimEnd().split("\n"), about: it.about },
  })));
}

/** The statements and expressions of the language, as its reference has them. */
function listStatements() {
  const { about, rows, values } = stored.statements;
  element("forms").replaceChildren(...inline(about));
  const rowsOf = (of) => of.map(([form, what]) => make("tr", {}, make("th", { scope: "row" }, ...inline(form)), make("td", {}, ...inline(what))));
  element("statements").replaceChildren(...rowsOf(rows));
  element("values").replaceChildren(...rowsOf(values));
}

/** What each kind of event means. */
function listKinds() {
  element("kinds").replaceChildren(...KINDS.map(([kind, what]) => make("tr", {}, make("th", { scope: "row" }, make("code", {}, kind)), make("td", {}, what))));
}

const nameOf = (path) => path.split("/").pop();

// What stands between `, * or ** in a sentence, and the element that shows it.
const MARKED = /`([^`]+)`|\*\*([^*]+)\*\*|\*([^*]+)\*/g;

/** The words of a sentence, those in bold, italics and code as elements. */
function inline(text) {
  const [words, parts] = [text.replace(/\n/g, " "), []];
  let from = 0;
  for (const found of words.matchAll(MARKED)) {
    const [code, bold, slanted] = found.slice(1);
    parts.push(words.slice(from, found.index), code ? make("code", {}, code) : bold ? make("b", {}, bold) : make("i", {}, slanted));
    from = found.index + found[0].length;
  }
  return [...parts, words.slice(from)];
}

const paragraph = (text) => make("p", {}, ...inline(text));

/** A sentence as it stands alone: with a capital letter and a full stop. */
const sentence = (text) => (/[.?!*]$/.test(text) ? text : `${text[0].toUpperCase()}${text.slice(1)}.`);

/** Shows which choice is open, and what is said of it. */
function showChoice(value) {
  const { about } = choices.get(value) || { about: "" };
  chosen = choices.has(value) ? value : "";
  element("choice").value = chosen;
  element("about").replaceChildren(...about.split(/\n\n+/).filter(Boolean).map((text) => paragraph(sentence(text))));
}

/** Opens a lesson, a program or a world, or the program of one's own as it was left. */
async function choose(value) {
  if (chosen === "" && source() !== "") {
    own = { ...whole(), at: now };
  }
  element("answer").hidden = true;
  raced = new Set();
  if (value === "" && own) {
    return reopen(own, own.at || 0);
  }
  const it = choices.get(value) || { name: "your program", source: "# on each rank, this prints its number\nprint rank\n", ranks: 2, lines: [], about: "" };
  [called, element("source").value, element("count").value] = [it.name, it.source, String(it.ranks)];
  showChoice(value);
  return startWith(it.lines);
}

async function beginLab() {
  document.querySelector("header").after(element("lab"));
  element("lab").hidden = false;
  // the diagram stands above what may happen next
  element("acts-head").before(element("diagram").closest("section"));
  element("program-head").textContent = "Where each rank is";
  // and what leads on stands where it is always seen
  element("controls").after(element("leading"));
  element("files").hidden = true;
  element("origin").textContent = stored.origin;
  listChoices();
  listStatements();
  listKinds();
  offerRuns();
  const click = (id, does) => element(id).addEventListener("click", does);
  element("choice").addEventListener("change", () => choose(element("choice").value));
  element("count").addEventListener("change", () => {
    // (a number out of range is the next one within it)
    element("count").value = String(ranks());
    typed();
  });
  element("source").addEventListener("input", typed);
  element("source").addEventListener("scroll", scrollSheet);
  for (const id of ["back", "play", "forward"]) {
    click(id, () => revealDiagram(true));
  }
  click("to-end", () => lead(["--to-the-end"]));
  click("catch-up", () => lead([]));
  click("anew", beginAnew);
  click("explore", explore);
  click("judge", askOutcome);
  click("runs", askRuns);
  click("canonical", canonical);
  click("to-c", showC);
  click("as-events", showEventsText);
  click("link", () => copy(location.href, element("link")));
  document.addEventListener("shown", showActs);
  window.addEventListener("hashchange", () => {
    const part = location.hash.split(";")[1];
    if (part && `;${part}` !== experiment) {
      restore();
    }
  });
  // a file that is dropped is a program
  document.addEventListener("drop", (event) => {
    event.preventDefault();
    event.stopImmediatePropagation();
    document.body.classList.remove("dropping");
    const [file] = event.dataTransfer.files;
    if (file) {
      file.text().then((text) => { called = file.name; write(text); });
    }
  }, true);
  if (!await restore()) {
    element("choice").value = "examples/answer.rank";
    await choose("examples/answer.rank");
  }
}

beginLab();
