// Says which transfers the job of standard input had. The argument is the folder that ./kdf9 lib wrote.
import { readFileSync } from "node:fs";
import { join, resolve } from "node:path";
import { pathToFileURL } from "node:url";

const folder = resolve(process.argv[2]);
const { compiled, facts } = await import(pathToFileURL(join(folder, "kdf9.mjs")).href);

const module = await compiled(readFileSync(join(folder, "kdf9.wasm")));
const told = facts(module, ["run"], readFileSync(0)).facts;
if (told.kind === "fault") console.log(`${told.name}: ${told.sentence ?? ""}`);
for (const { device, slot, words, began, ended } of told.transfers ?? []) {
  console.log(`device ${device} for slot ${slot}: ${words} words, from call ${began} to ${ended ?? "the end"}`);
}
