// Runs the job of standard input, and writes its report. The argument is the folder that ./kdf9 lib wrote.
import { readFileSync } from "node:fs";
import { join, resolve } from "node:path";
import { pathToFileURL } from "node:url";

const folder = resolve(process.argv[2]);
const { answer, compiled } = await import(pathToFileURL(join(folder, "kdf9.mjs")).href);

const module = await compiled(readFileSync(join(folder, "kdf9.wasm")));
const { status, text } = answer(module, ["run"], readFileSync(0));
process.stdout.write(text);
process.exitCode = status;
