// Answers a command by the machine as WebAssembly: node answer.mjs FOLDER WORD .. reads FOLDER/kdf9.wasm and standard input, writes the text, and ends with the
// status. FOLDER has web/machine.js and web/narrow.js too, by names that Node takes for modules.
import { readFileSync, writeSync } from "node:fs";
import { pathToFileURL } from "node:url";

const [folder, ...words] = process.argv.slice(2);
const part = (name) => import(pathToFileURL(`${folder}/${name}.mjs`).href);

/** The smallest module with a memory whose addresses have 64 bits. */
const MEMORY_OF_64_BITS = new Uint8Array([0, 97, 115, 109, 1, 0, 0, 0, 5, 3, 1, 4, 1]);

/** The bytes of the module, as this Node can run it. */
async function runnable() {
  const bytes = new Uint8Array(readFileSync(`${folder}/kdf9.wasm`));
  return WebAssembly.validate(MEMORY_OF_64_BITS) ? bytes : (await part("narrow")).narrowed(bytes);
}

const { answer, compiled } = await part("machine");
const { status, text } = answer(await compiled(await runnable()), words, new Uint8Array(readFileSync(0)));
for (let at = 0; at < text.length;) at += writeSync(1, text, at);
process.exitCode = status;
