// To what the calls of a run went: the measures that the tool stats tells (tools/kdf9/spent.py). The machine counts the calls of each program and the transfers, words
// and calls of each device; by which group, device or kind a program was held up, and for how long a device was lent, the spans of the timeline say. The names of the
// measures, and what each is, stand in tables/measures.json.

import { MEASURES, worded } from "./tables.js";

const total = (numbers) => numbers.reduce((sum, number) => sum + number, 0);
const lengthOf = (spans) => total(spans.map(({ start, end }) => end - start));

/** The calls at which each cause held a program up, by its spans. */
function callsOfCauses(spans) {
  const held = spans.filter(({ hold }) => hold), causeOf = ({ hold }) => `${hold.by} ${hold[hold.by]}`, causes = [...new Set(held.map(causeOf))].sort();
  return new Map(causes.map((cause) => [cause, lengthOf(held.filter((span) => causeOf(span) === cause))]));
}

function measuresOfRun({ made, idle, meanwhile, holds, calls, programs }) {
  const over = programs.filter(({ state }) => state !== "LIVE").length;
  return {
    calls: made, running: total(calls.map(({ calls: { running } }) => running)), overlapped: meanwhile, "held up": holds.length, idle,
    throughput: made ? MEASURES.throughput_calls * over / made : 0,
  };
}

function measuresOfSlot({ programs, calls }, slot) {
  const { running, ready, held: { device, group, pool } } = calls.find((each) => each.slot === slot).calls, held = device + group + pool;
  return { orders: programs.find((each) => each.slot === slot).orders, turnaround: running + ready + held, running, ready, held };
}

function measuresOfDevice({ device, transfers, words, busy }, lendings, held) {
  const waited = total([...held.values()].map((causes) => causes.get(`device ${device}`) ?? 0));
  return { transfers, words, busy, "waited for": waited, ...(lendings ? { "times lent": lendings.length, lent: lengthOf(lendings) } : {}) };
}

/** The measures of a run over time: of each what it is of, its name, the text of its row, what it is in a sentence, its value, and of how many calls it is a share, or
 * null. A device of the pool that nobody took isn't told. */
export function toldMeasures({ facts, slots, used, pool, lendings }) {
  const run = measuresOfRun(facts), held = new Map([...slots].map(([slot, spans]) => [slot, callsOfCauses(spans)]));
  const told = ({ of, name, row, share, says }, value, values = {}) => ({ of, name, row: worded(row, values), says, value, whole: share ? run[share] : null, ...values });
  const ofAll = (of, values) => MEASURES.measures.filter((each) => each.of === of && each.name in values);
  return [
    ...ofAll("run", run).map((each) => told(each, run[each.name])),
    ...used.toSorted((one, other) => one.device - other.device).flatMap((device) => {
      const values = measuresOfDevice(device, lendings.get(device.device), held), name = `${device.device} ${device.kind}${pool.has(device.device) ? " (pool)" : ""}`;
      return ofAll("device", values).map((each) => told(each, values[each.name], { device: name }));
    }),
    ...[...slots.keys()].flatMap((slot) => {
      const values = measuresOfSlot(facts, slot), causes = MEASURES.measures.findLast(({ of }) => of === "slot");
      return [...ofAll("slot", values).map((each) => told(each, values[each.name], { slot })), ...[...held.get(slot)].map(([cause, calls]) => told(causes, calls, { slot, cause }))];
    }),
  ];
}
