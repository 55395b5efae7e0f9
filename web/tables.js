// The tables of the folder tables/, which tools/web/bundle.py puts in the places of their names. The tools have the same ones (tools/kdf9/tables.py).

const ORDERS = /* tables/orders.json */ null;
const HINTS = /* tables/hints.json */ null;
export const JOB = /* tables/job.json */ null;

/** The name of the order that each form of a statement means. */
export const ENTRIES_OF_FORMS = Object.fromEntries(ORDERS.orders.flatMap(({ name, forms }) => Object.keys(forms).map((form) => [form, name])));

/** The lines of a job by the word with which each begins. */
export const LINES = Object.fromEntries(JOB.lines.map((line) => [line.word, line]));

/** What a picture of a run looks like, and what it says. */
export const PICTURE = /* tables/picture.json */ null;

/** The measures of a run. */
export const MEASURES = /* tables/measures.json */ null;

/** Sets of speeds of devices. */
export const SPEEDS = /* tables/speeds.json */ null;

/** How far a search through the schedules of a job goes, and what it says. */
export const OUTCOMES = /* tables/outcomes.json */ null;

/** A sentence of a table, with these values in the places of their names. */
export const worded = (sentence, values) => sentence.replace(/\{(\w+)\}/g, (_, each) => values[each]);

/** The hint of this name, with these values in the places of their names. */
export const hint = (name, values = {}) => worded(HINTS[name], values);
