// Prose as the tools hand it to the page: texts, and elements, each with its name and what is in it.

import { make } from "./dom.js";

/** The nodes of some prose. */
export const nodesOf = (parts) => parts.map((part) => (typeof part === "string" ? part : make(part[0], {}, ...nodesOf(part[1]))));
