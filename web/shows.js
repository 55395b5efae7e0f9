// The words that a job shows, as somebody types them: by their addresses, or by the names of stores, which the lines SHOW don't know.

import { layoutOf } from "./deck.js";
import { jobOfDeck } from "./job.js";

const STORES = /^(V|Y[A-Z]?)(\d+)?(?:P(\d+))?$/, ADDRESS = /^E?(\d+)$/;

/** Why there is no address for what is typed. */
export class NoAddress extends Error {}

/** Whether some of these ranges have names. */
export const haveNames = (shows) => shows.some((show) => /[A-Za-z]/.test(show));

/** The first and the last address of a store, or of a whole group such as YA. */
function addressesOf(piece, layout) {
  const number = ADDRESS.exec(piece)?.[1], [, before, index, part] = STORES.exec(piece) ?? [];
  if (number !== undefined) return [number, number];
  const found = layout.storesNamed(before, Number(part ?? 0));
  if (!found || Number(index) >= found.count) throw new NoAddress(`this deck has no store ${piece}`);
  return index === undefined ? [found.address, found.address + found.count - 1] : [found.address + Number(index), found.address + Number(index)];
}

/** A range such as `YA0 to YA60`, `YA` or `V3 40`, with addresses in the places of the names. */
function rangeOf(show, layout) {
  const pieces = show.toUpperCase().split(/\s+/).filter((piece) => piece !== "TO" && piece !== "");
  const [first, last] = [pieces[0], pieces.at(-1)].map((piece) => addressesOf(piece, layout));
  if (pieces.length > 2) throw new NoAddress(`${show} isn't one store or two`);
  return `${first[0]} ${last[1]}`;
}

/** The ranges with addresses in the places of the names of a slot's stores. The machine lists the deck to find them. */
export async function withAddresses(ask, slot, shows) {
  if (!haveNames(shows)) return shows;
  const layout = await layoutOf(ask, jobOfDeck(slot), slot.number);
  if (!layout) throw new NoAddress("the deck or its store has a fault, so nobody knows yet where its stores are");
  return shows.map((show) => rangeOf(show, layout));
}
