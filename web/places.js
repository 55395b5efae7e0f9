// The places of a deck that have names, references and the beginnings of parts, and the jumps to them.

import { OPENING, statementsOf } from "./deck.js";

const JUMP = /^JS?(\d*)(?:P(\d+))?/;

/** The name of the place that a statement has or to which it jumps, as a jump names it: `1P0` or `P2`; null if it has to do with none. */
function placeOf(text, part) {
  const opening = OPENING.exec(text), jump = JUMP.exec(text);
  if (opening) return `P${part}`;
  if (/^\d+$/.test(text)) return `${Number(text)}P${part}`;
  if (!jump || (jump[1] === "" && jump[2] === undefined)) return null;
  return `${jump[1] === "" ? "" : Number(jump[1])}P${Number(jump[2] ?? part)}`;
}

/** The statements of a deck from first to last. Each has the number of its part, null before the first, and the place that it has or to which it jumps. */
export function placesOf(deck) {
  let part = null;
  return statementsOf(deck).map((statement) => {
    const opening = OPENING.exec(statement.text);
    if (opening) part = Number(opening[1] ?? 0);
    return { ...statement, part, place: placeOf(statement.text, part), isJump: JUMP.test(statement.text) };
  });
}

/** The statement at an offset, or the last one before it on the same line, or undefined. */
export function statementNear(statements, deck, offset) {
  const found = statements.findLast(({ start }) => start <= offset);
  return found && (offset <= found.end || !deck.slice(found.end, offset).includes("\n")) ? found : undefined;
}

/** The statements that have to do with the same place as this one: the place itself and the jumps to it. */
export const usesOf = (statements, statement) => (statement?.place ? statements.filter(({ place }) => place === statement.place) : []);

/** Where to go from a statement: from a jump to its place, and from a place to the next jump to it; undefined if there is nothing. */
export function nextUse(statements, statement) {
  const uses = usesOf(statements, statement);
  if (statement?.isJump) return uses.find(({ isJump }) => !isJump);
  const jumps = uses.filter(({ isJump }) => isJump);
  return jumps.find(({ start }) => start > statement.start) ?? jumps[0];
}

/** The numbers of the references of a part. */
export const referencesOf = (statements, part) => statements.filter((each) => each.part === part && /^\d+$/.test(each.text)).map(({ text }) => text);

/** The names of the stores that a deck declares, as the part with this number names them, with the number of the last store of each group. */
export function storesOfDeck(statements, part) {
  const groups = statements.flatMap(({ text, part: own }) => {
    const declared = own === null && /^(Y[A-Z]?)(\d+)$/.exec(text), opening = OPENING.exec(text);
    if (declared) return [[declared[1], Number(declared[2])]];
    return opening?.[2] !== undefined && own === part ? [["V", Number(opening[2])]] : [];
  });
  return new Map(groups);
}
