// What if a device were faster or slower? The run is made again with a schedule in which its transfers take another number of calls, and both runs are shown.

import { button, choice, labelled, make } from "./dom.js";
import { factsOfRun } from "./facts.js";
import { readJob } from "./job.js";
import { Pictured, tableOfSums } from "./pictured.js";
import { many } from "./report.js";
import { withTransfers } from "./schedule.js";
import { Timeline } from "./timeline.js";

const LEAST_TIMES = 0.01, MOST_TIMES = 1000;

/** The moves and the end of each transfer of a job's run by its device, each as the number of calls after it began; the end is null if it has none. */
function eventsOfTransfers({ devices, moves }) {
  return new Map([...devices].map(([device, spans]) => {
    const events = spans.map(({ start, end, isOpen }) => ({ start, moves: [], end: isOpen ? null : end - start }));
    for (const { call, words } of moves.get(device)) {
      const at = events.findLastIndex(({ start }) => start <= call);
      events[at].moves.push({ after: call - events[at].start, words });
    }
    return [`${device}`, events];
  }));
}

/** The text of a job whose transfers take as many calls as in this run of it, but for those of a device, which is so many times as fast. */
export function withSpeed(ask, text, timeline, device, times) {
  const before = eventsOfTransfers(timeline), usual = Math.max(1, Math.round(meanOf([...before.values()].flat())));
  return withTransfers(ask, text, ({ calls, device: own, index }) => {
    const all = before.get(own) ?? [], like = all[index] ?? { moves: [], end: Math.round(meanOf(all) || usual) };
    const after = (number) => calls + (own === `${device}` ? Math.ceil(number / times) : number);
    const moves = like.moves.map(({ after: number, words }) => ({ calls: after(number), line: `MOVE ${own} ${words}` }));
    return [...moves, { calls: like.end === null ? Infinity : after(like.end), line: `END ${own}` }];
  });
}

/** How many calls transfers took on average that ended; 0 if none did. */
function meanOf(transfers) {
  const ended = transfers.filter(({ end }) => end !== null);
  return ended.reduce((sum, { end }) => sum + end, 0) / Math.max(1, ended.length);
}

/** When the programs of a run were over, in words. */
function saidOfEnds({ ends, total }) {
  const last = [...ends.values()].map((each) => each[0]?.call);
  return last.every((call) => call !== undefined) ? `the last program was over at call ${Math.max(...last).toLocaleString("en")}` : `some program isn't over after ${many(total, "call")}`;
}

/** The controls that ask for another speed of a device, and what came of it; null if no device had a transfer. `take` puts the job with that schedule in place of the
 * one that was run. */
export function whatIf({ text, timeline }, { ask, say, work, take }) {
  const used = [...timeline.devices].filter(([, spans]) => spans.length).map(([device]) => [`${device}`, `device ${device} ${timeline.kinds.get(device)}`]);
  if (!used.length || !readJob(text)) return null;
  const device = choice(used, used[0][0], () => {}), times = make("input", { type: "text", inputmode: "decimal", value: "2", size: "5" }), shown = make("div", {});
  const show = async () => {
    const factor = Number(times.value);
    if (!(factor >= LEAST_TIMES && factor <= MOST_TIMES)) return say(`How many times as fast a device is has to be a number from ${LEAST_TIMES} to ${MOST_TIMES}: 2, or 0.5.`, true);
    return work("Running with another speed.", async () => {
      const other = await withSpeed(ask, text, timeline, Number(device.value), factor), now = new Timeline(await factsOfRun(ask, other)), name = device.selectedOptions[0].textContent;
      shown.replaceChildren(...drawBoth(timeline, now, { name, factor, say }), button("Put this schedule into the job", () => take(other, `${name} is ${factor} times as fast`)));
      say(`If ${name} were ${factor} times as fast, ${saidOfEnds(now)}; here ${saidOfEnds(timeline)}.`);
    });
  };
  times.onkeydown = (event) => { if (event.key === "Enter" && !event.ctrlKey) show(); };
  return make("details", { class: "what-if", open: true }, make("summary", {}, "What if a device were faster?"),
    make("div", { class: "fields" }, labelled("Device", device), labelled("Times as fast (0.5: half)", times), button("Show", show, { "aria-label": "Show what if" })), shown);
}

/** Both runs drawn to one scale, and to what their calls went. */
function drawBoth(before, now, { name, factor, say }) {
  const calls = Math.max(before.total, now.total), draw = (timeline, title) => [make("h3", {}, title), new Pictured(timeline, { name: title, calls }).element];
  return [
    ...draw(before, `As it was: ${saidOfEnds(before)}`), ...draw(now, `If ${name} were ${factor} times as fast: ${saidOfEnds(now)}`), tableOfSums(now, { other: before, say }),
  ];
}

