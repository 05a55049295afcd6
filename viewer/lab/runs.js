// Runs with crashes: `ftmpi run`, `trace` and `soak` on one thread, where a policy and a seed decide
// which rank has the next turn. They are here if the program has `--schedule`.
"use strict";

const SCRIPT = "it.script";
// What decides who has the next turn, by the words of `--schedule`, with what it means.
const POLICIES = [
  ["round-robin", "one rank after another"],
  ["uniform", "any rank, each as likely"],
  ["starve", "one rank is held for long, and then another"],
  ["run-on", "a rank goes on until it finds nothing to do"],
  ["recovery-first", "a rank that has crashed goes on alone until it is back"],
];

// The policies that the program's help names; none if it has no `--schedule`.
let policies = [];

/** Shows the button for runs if the program has a schedule. */
async function offerRuns() {
  const { out } = await engine.call(["run", "--help"], {});
  policies = out.includes("--schedule") ? POLICIES.filter(([name]) => out.includes(name)) : [];
  element("runs").hidden = policies.length === 0;
  element("one-thread").hidden = policies.length === 0;
  element("no-runs").hidden = policies.length > 0;
}

/** What a run is made of: the program as it is now, and what was chosen. */
function chosenRun() {
  const seed = Number.parseInt(element("seed").value, 10) || 0;
  return { source: source(), count: ranks(), script: element("script").value, policy: element("policy").value, seed };
}

function wordsOf({ count, policy, seed }) {
  return ["--ranks", String(count), "--schedule", policy, "--seed", String(seed)];
}

/** Asks for a schedule, a script and how many runs. */
function askRuns() {
  const field = (words, input) => make("label", {}, words, input);
  const number = (id, value, most) => make("input", { id, type: "number", min: "1", max: String(most), value: String(value) });
  const choice = make("select", { id: "policy" }, ...policies.map(([value, words]) => make("option", { value }, `${value}: ${words}`)));
  // (by turns in a row each seed makes the same run)
  choice.value = policies.some(([value]) => value === "uniform") ? "uniform" : policies[0][0];
  const script = make("textarea", { id: "script", rows: "3", spellcheck: "false", placeholder: "kill 1 at 1" });
  script.value = `kill ${ranks() - 1} at 1\n`;
  const button = (id, kind, words, does) => {
    const made = make("button", { type: "button", id, class: kind }, words);
    made.addEventListener("click", does);
    return made;
  };
  answer("Runs with crashes", make("p", {}, ...inline("The ranks take turns on one thread, as the policy and the seed decide: the same seed makes the same run. "
    + "Threads may have another order. A line of the script crashes a rank after its act of a clock, `kill RANK at CLOCK`, or takes its image, `image RANK at CLOCK`.")),
  make("label", { for: "script" }, "Script"), script, make("div", { class: "bar" }, field("Policy", choice), field("Seed", number("seed", 1, 1e9)), field("Runs", number("many", 8, 1000))),
  make("div", { class: "bar" }, button("make-runs", "main", "Run, seed by seed", makeRuns), button("make-soak", "", "Soak: scripts at random", makeSoak)),
  make("div", { id: "ran", role: "status" }));
}

/** A worker of its own at work, with a Stop button and its progress. `work` gets how to call and how to tell. */
async function inWorker(title, work) {
  const progress = make("p", { id: "progress", role: "status" }, `${title} ..`);
  const stop = make("button", { type: "button", id: "stop" }, "Stop");
  element("ran").replaceChildren(make("div", { class: "bar" }, stop, progress));
  const tell = (words) => { progress.textContent = `${words} ..`; };
  const worker = new Engine((heard) => tell(heard.trim().split("\n").pop()));
  const stopped = new Promise((then) => { stop.addEventListener("click", () => then(true)); });
  const isStopped = await Promise.race([stopped, work(worker, tell)]);
  worker.stop();
  stop.remove();
  progress.textContent = isStopped === true ? "Stopped." : "";
  element("ran").scrollIntoView({ block: "nearest" });
}

/** Makes a run for each of some seeds, and shows their outcomes, each with its seeds. */
async function makeRuns() {
  const of = chosenRun();
  const many = Math.max(1, Math.min(1000, Number.parseInt(element("many").value, 10) || 1));
  const found = new Map();
  const list = make("div", { id: "run-outcomes" });
  await inWorker("runs", async (worker, tell) => {
    element("ran").append(list);
    for (let seed = of.seed; seed < of.seed + many && !worker.isStopped; seed += 1) {
      tell(`seed ${seed}`);
      const one = { ...of, seed };
      const { out, err } = await worker.call(["run", ...wordsOf(one), "--script", SCRIPT, PROGRAM], { [PROGRAM]: of.source, [SCRIPT]: of.script });
      // (the last line counts crashes and calls, which differ from run to run)
      const said = (out || err).trimEnd();
      const outcome = out ? said.split("\n").slice(0, -1).join("\n") : said;
      found.set(outcome, [...(found.get(outcome) || []), { one, last: out ? said.split("\n").pop() : "" }]);
      list.replaceChildren(...[...found].map(([words, runs], index) => outcomeOfRuns(words, runs, index + 1)));
    }
  });
}

function outcomeOfRuns(words, runs, number) {
  const buttons = runs.map(({ one, last }) => {
    const button = make("button", { type: "button", "data-seed": String(one.seed), title: last }, `Seed ${one.seed}`);
    button.addEventListener("click", () => openRun(one));
    return button;
  });
  return make("section", {}, make("h3", {}, `Outcome ${number}: ${counted(runs.length, "run")}`), make("pre", {}, words),
    make("div", { class: "bar" }, "Open as a world:", ...buttons));
}

/** Opens a run as a world: its events, with the crashes and images of its script. */
async function openRun(one) {
  const done = await ftmpi(["trace", "--events", ...wordsOf(one), "--script", SCRIPT, PROGRAM], { [PROGRAM]: one.source, [SCRIPT]: one.script });
  if (done.out === "") {
    element("busy").textContent = done.err.trim();
  } else {
    await openEvents(events(done.out), one.source, one.count);
  }
}

/** Runs with scripts that are drawn at random; each can be opened by its number. */
async function makeSoak() {
  const of = chosenRun();
  const many = String(Math.max(1, Number.parseInt(element("many").value, 10) || 1));
  const words = (more) => ["soak", ...wordsOf(of), "--runs", many, ...more, PROGRAM];
  await inWorker("runs", async (worker) => {
    const { out, err } = await worker.call(words([]), { [PROGRAM]: of.source });
    const which = make("input", { id: "soak-run", type: "number", min: "1", max: many, value: "1", "aria-label": "Run" });
    const open = make("button", { type: "button", id: "open-soak" }, "Open this run as a world");
    open.addEventListener("click", async () => {
      const done = await ftmpi(words(["--script-of", which.value]), { [PROGRAM]: of.source });
      if (done.out === "") {
        element("busy").textContent = done.err.trim();
      } else {
        // (run K takes the turns of the seed K - 1 further)
        await openRun({ ...of, seed: of.seed + Number(which.value) - 1, script: done.out });
      }
    });
    element("ran").append(make("pre", { id: "soaked" }, out || err), make("div", { class: "bar" }, make("label", {}, "Run", which), open));
  });
}
