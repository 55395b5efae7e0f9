// A page that has a course: an exercise is beside the editor, and is checked here.

import { byId } from "./dom.js";
import { CourseView } from "./courseview.js";
import { bytesOf, unpacked } from "./engine.js";
import { judged } from "./exercise.js";
import { page } from "./page.js";

let view = null;

/** The course, once it is unpacked and drawn. */
const drawn = unpacked(bytesOf(byId("course-data").textContent)).then((bytes) => {
  view = new CourseView(JSON.parse(new TextDecoder().decode(bytes)), page);
  return view;
});

// For use from the browser's console, and by the tests: how a text does in the exercise of a number.
globalThis.kdf9.check = async (number, text) => judged(page.ask, (await drawn).course.exercises.find((each) => each.number === number), text, () => {});

Object.assign(page, {
  first: async () => (await drawn).begin(),
  opened: async () => (await drawn).opened(),
  shown: (text) => view?.shown(text),
  changed: () => view?.changed(),
  busy: (isBusy) => view?.busy(isBusy),
});
