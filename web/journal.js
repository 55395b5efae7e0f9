// The journal of a run, from its facts: what its entries mean, and with which calls a program obeyed its orders.

import { NAMES_OF_POOL, many } from "./report.js";
import { JOB } from "./tables.js";

const WORDS_OF_GROUP = JOB.most.words_of_group;

/** The words of a group. */
export const wordsOfGroup = (group) => `words ${WORDS_OF_GROUP * group} to ${WORDS_OF_GROUP * (group + 1) - 1}`;

/** The calls at which the program of a slot obeyed these orders of its own, which are in ascending sequence; 0 for order 0. It has to have obeyed that many. */
export function callsOfOrders({ entries }, number, orders) {
  const calls = [];
  let obeyed = 0;
  while (orders[calls.length] === 0) calls.push(0);
  for (const { call, entry, slot, orders: more } of entries) {
    if (entry !== "RAN" || slot !== number) continue;
    while (orders[calls.length] <= obeyed + more) calls.push(call + orders[calls.length] - obeyed);
    obeyed += more;
  }
  return calls;
}

/** The priorities after two slots have exchanged theirs. */
export const exchangedIn = (order, one, other) => order.map((slot) => (slot === one ? other : slot === other ? one : slot));

/** What each entry of a journal means, in words. */
const SAID = {
  RAN: ({ slot, orders }) => `program ${slot} obeyed ${many(orders, "order")}`,
  START: ({ slot, device, order }) => `order ${order} of program ${slot} began a transfer on device ${device}`,
  ANSWER: ({ slot, answer }) => `program ${slot} asked, and was answered ${answer}`,
  TAKE: ({ slot, device }) => `program ${slot} took device ${device} from the pool`,
  GIVE: ({ slot, device }) => `program ${slot} gave device ${device} back to the pool`,
  FAIL: ({ slot, kind }) => `program ${slot} failed: ${kind}`,
  ENDED: ({ slot }) => `program ${slot} ended`,
  LOV: ({ slot, group }) => `program ${slot} is held up by group ${group}, ${wordsOfGroup(group)}, which is locked out`,
  BUSY: ({ slot, device }) => `program ${slot} is held up by device ${device}, which has a transfer`,
  WAIT: ({ slot, kind }) => `program ${slot} is held up by the pool, of which every ${NAMES_OF_POOL[kind]} has a holder`,
  IDLE: ({ calls }) => `${many(calls, "call")} found all live programs held up`,
  MOVE: ({ device, words }) => `the transfer of device ${device} moved ${many(words, "word")}, or those that were left`,
  END: ({ device }) => `the transfer of device ${device} ended`,
  CLOCK: ({ time }) => `the clock showed ${time}`,
  SWAP: ({ slot, other }) => `programs ${slot} and ${other} exchanged their priorities`,
};

/** An entry of a journal in words. */
export const saidOf = (entry) => SAID[entry.entry](entry);
