// Outcomes: what the world that is shown comes to, and whether some run without crashes has it, as
// `ftmpi judge` says. A run that has it is made as a world: its receptions, probes and lines are those
// of the outcome, and `ftmpi world` plays it.
"use strict";

const OUTCOME = "it.outcome";

/** What the ranks did up to a step, in the form of an outcome. */
function outcomeOf(of, step) {
  const made = of.steps.slice(0, step + 1).map((it) => it.act).filter(Boolean);
  return of.steps[step].ranks.flatMap((rank, number) => {
    // (of an act that was made several times the last one counts; what was lost isn't there)
    const acts = new Map(made.filter((act) => act.rank === number && act.clock <= Math.max(rank.clock || 0, rank.passed)).map((act) => [act.clock, act]));
    const said = [...acts.values()].sort((one, other) => one.clock - other.clock).map(lineOf).filter(Boolean);
    return [...said, `end ${number} ${endOf(rank)}`];
  });
}

/** The line of an outcome that tells an act. A send has none. */
function lineOf({ rank, clock, kind, value, determinant }) {
  if (kind === "print") {
    return `print ${rank} at ${clock} ${value}`;
  }
  if (!determinant) {
    return "";
  }
  if (!NAMING.includes(determinant.kind)) {
    return `miss ${rank} at ${clock}`;
  }
  return `${determinant.kind === "hit" ? "hit" : "recv"} ${rank} at ${clock} from ${determinant.source} at ${determinant.sent_at}`;
}

function endOf({ wants }) {
  const { kind, number } = wants || {};
  return kind === "halted" ? "halted" : kind === "fault" ? `fault ${number}` : "unfinished";
}

// ---- a run with an outcome, as events

// So many steps a rank makes at most between two looks at the world, and so often it is looked at.
const STEPS = 8;
const LOOKS = 1000;
// Replies to events that left all as it was.
const IDLE = ["blocked", "held", "ended", "refused"];

/** What an outcome asks of each rank: the line of each act by its clock, the packet that it names, and the end. */
function askedBy(outcome, count) {
  const asked = Array.from({ length: count }, () => ({ lines: new Map(), packets: new Map(), end: "" }));
  for (const words of linesIn(outcome).filter(isEvent).map((line) => line.trim().split(/\s+/))) {
    const [kind, rank, , clock, , source, , sent] = words;
    if (kind === "end") {
      asked[rank].end = words.slice(2).join(" ");
    } else {
      asked[rank].lines.set(Number(clock), words.join(" "));
    }
    if (kind === "recv" || kind === "hit") {
      asked[rank].packets.set(Number(clock), { source: Number(source), sent: Number(sent) });
    }
  }
  return asked;
}

/**
 * Events without a crash after which each rank has made the acts of an outcome, or null if none are
 * found. Each rank goes on by itself, and is given a packet only when it is to take it. Each act is
 * compared with the outcome, and one that isn't there is taken back with what follows. A run whose
 * packets have to come in another order isn't found so.
 */
async function eventsWith(outcome, text, count, hear) {
  const asked = askedBy(outcome, count);
  const bold = asked.map(() => STEPS);
  let [kept, more] = [[], []];
  for (let look = 0; look < LOOKS; look += 1) {
    const of = await worldWith([...kept, ...more], text, count);
    const beyond = of.steps.findIndex(({ act }) => act && lineOf(act) !== (asked[act.rank].lines.get(act.clock) || ""));
    const end = beyond < 0 ? of.events.length : beyond - 1;
    const made = of.events.slice(0, end).filter(({ reply }) => !IDLE.includes(reply)).map((event) => event.text);
    const { ranks } = of.steps[end];
    if (ranks.every((rank) => isThere(rank, asked[rank.rank]))) {
      return made;
    }
    if (beyond >= 0) {
      const { rank } = of.steps[beyond].act;
      bold[rank] = bold[rank] > 1 ? 1 : 0;
    } else if (look > 0 && made.length === kept.length) {
      return null;
    }
    hear(made.length);
    kept = made;
    more = ranks.flatMap((rank) => comesNext(of, end, rank, asked[rank.rank], bold[rank.rank]));
  }
  return null;
}

async function worldWith(events, text, count) {
  const { out, err } = await engine.call(["world", "--json", "--ranks", String(count), PROGRAM, EVENTS], { [PROGRAM]: text, [EVENTS]: asText(events) });
  if (out === "") {
    throw new Error(err.trim());
  }
  return worldOf(out);
}

/** Whether a rank has made all that is asked of it. */
function isThere(rank, { lines, end }) {
  const isAtEnd = ["unfinished", "stalled"].includes(end) || endOf(rank) === end;
  return rank.waiting.length === 0 && isAtEnd && [...lines.keys()].every((clock) => clock <= rank.clock);
}

/** What a rank does next: what waits at its gate passes, frames are put, and steps are made. */
function comesNext(of, step, rank, { lines, packets }, steps) {
  const self = rank.rank;
  const passes = rank.waiting.flatMap(({ stored }) => (stored === undefined ? [`release ${self}`] : stored ? [`ack ${self}`] : [`store ${self}`, `ack ${self}`]));
  const puts = rank.next.map(({ destination }) => `put ${self} ${destination}`);
  const so = [...passes, ...puts];
  const going = Array(steps).fill(`step ${self}`);
  if (["internal", "send", "print"].includes(rank.wants.kind)) {
    return [...so, ...going];
  }
  const clock = rank.clock + 1;
  const packet = packets.get(clock);
  const arrivals = packet ? arrivalsUpTo(of, step, packet, self) : lines.has(clock) ? [] : null;
  return arrivals ? [...so, ...arrivals, ...going] : so;
}

/** The arrivals that give a rank this packet, and those before it; null if it wasn't put yet. */
function arrivalsUpTo(of, step, { source, sent }, rank) {
  const frames = of.wires[source][rank].filter((frame) => frame.packet && frame.put <= step);
  const last = frames.findIndex((frame) => frame.packet.clock === sent);
  return last < 0 ? null : frames.slice(0, last + 1).filter((frame) => arrivalsOf(frame, step).length === 0)
    .map((frame) => `arrive ${source} ${rank} ${frame.index}`);
}

// ---- what the page shows of it

function askOutcome() {
  const text = make("textarea", { id: "outcome", rows: "6", spellcheck: "false", "aria-label": "Outcome" });
  text.value = asText(outcomeOf(world, now));
  const ask = make("button", { type: "button", id: "ask", class: "main" }, "Judge it");
  const said = make("div", { id: "judged", role: "status" });
  ask.addEventListener("click", async () => {
    const of = { outcome: text.value, source: source(), count: ranks() };
    const done = await ftmpi(["judge", "--trace", "--ranks", String(of.count), PROGRAM, OUTCOME], { ...files(), [OUTCOME]: of.outcome });
    said.replaceChildren(...judgement(done, of));
    said.scrollIntoView({ block: "nearest" });
  });
  answer("Judge an outcome", make("p", {}, "Does some run without crashes have this outcome? These are the receptions, probes, lines and "
    + "ends of the world at the step that is shown. Change a number, and judge that."), text, make("div", { class: "bar" }, ask), said);
}

/** What `ftmpi judge --trace` says: yes with a run, which can be opened, or no with the place. */
function judgement({ status, out, err }, of) {
  const [word, ...rest] = (out || err).trimEnd().split("\n");
  const verdict = make("p", { id: "verdict", class: status === 0 ? "yes" : "no" }, word);
  const trace = make("pre", {}, rest.join("\n"));
  if (status !== 0) {
    return [verdict, trace];
  }
  const button = make("button", { type: "button", id: "open-judged" }, "Open a run with it as a world");
  button.addEventListener("click", () => openJudged(of));
  return [verdict, make("div", { class: "bar" }, button), trace];
}

async function openJudged({ outcome, source: text, count }) {
  const found = await eventsWith(outcome, text, count, (made) => { element("busy").textContent = `${made} events ..`; });
  if (found) {
    await openEvents(found, text, count);
  } else {
    element("busy").textContent = "the events of such a run aren't found so: the trace has its acts";
  }
}
