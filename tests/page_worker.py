"""Tries by themselves what the machine has for its compiler, products and shifts of 128 bits, and what stands between it and the page: the heap, and rooms for texts."""
import base64
import itertools
import json
import random
import sys

from toolkit import ROOT, TAIL

sys.path.insert(0, str(ROOT / "tools"))
from building import engine  # noqa: E402
from web.bundle import script  # noqa: E402

# Numbers at the edges of 32, 64 and 128 bits, and places to shift by.
EDGES = [
    0, 1, -1, 5, 2**32 - 1, 2**32, (2**32 - 1) ** 2, 2**47 - 1, 2**63 - 1, 2**63, 2**64 - 1, 2**64, -2**63, 2**95 + 12345, 2**96 - 1, -2**96, 2**127 - 1, -2**127, -2**64 - 7,
]
PLACES = [0, 1, 31, 32, 47, 63, 64, 65, 95, 96, 127]

SHIFTS = {
    "__ashlti3": lambda value, places: value << places, "__ashrti3": lambda value, places: value >> places,
    "__lshrti3": lambda value, places: value % 2**128 >> places,
}

# Calls of a function of the module, each with its numbers; what each wrote.
CALLS = """(async () => {
    const { instance: { exports } } = await WebAssembly.instantiate(await module_given, { env: imports({}) });
    const at = new Heap(exports.memory, Number(exports.__heap_base.value)).take(16), view = new DataView(exports.memory.buffer);
    return CASES.map(([name, ...numbers]) => {
        exports[name](BigInt(at), ...numbers.map((number) => (typeof number === "string" ? BigInt(number) : number)));
        return [at, at + 8].map((half) => `${view.getBigUint64(half, true)}`);
    });
})()"""

# A job whose report is longer than a small room, and how many bytes it has.
LONG = "KDF9 JOB 1\nSLOT 0\nSTORE 8192\nDECK\nPROGRAM; FINISH;\nENDDECK\n" + "SHOW 0 8191\n" * 6 + TAIL
LEAST = 1 << 20

# The answer to a job: its status, the bytes of its text, how many instances were made for it, and whether it took as little memory as its text wants. A memory has at
# most so many bytes.
ASKED = """(async () => {
    const { Instance } = WebAssembly, { grow } = WebAssembly.Memory.prototype, module = await WebAssembly.compile(await module_given);
    let made = 0;
    WebAssembly.Instance = function (...how) { made += 1; return new Instance(...how); };
    WebAssembly.Memory.prototype.grow = function (pages) {
        if (this.buffer.byteLength + 65536 * Number(pages) > MOST) throw new RangeError("no more");
        return grow.call(this, pages);
    };
    try {
        const { status, text, size, memory } = answer(module, ["run"], new TextEncoder().encode(JOB));
        return [status, text.length, size, made, memory > size && memory < 100000000];
    } finally {
        WebAssembly.Instance = Instance;
        WebAssembly.Memory.prototype.grow = grow;
    }
})()"""

# Takes, changes and gives back blocks at random, each filled with a byte of its own; what is wrong with one of them, and whether memory came to its end.
BLOCKS = """(() => {
    const memory = new WebAssembly.Memory({ initial: 1n, maximum: 64n, address: "i64" }), heap = new Heap(memory, 1000);
    const blocks = [];
    let seed = 1, wasFull = false;
    const chance = (below) => (seed = (seed * 48271) % 2147483647) % below;
    const bytes = () => new Uint8Array(memory.buffer);
    const fill = (block) => bytes().fill(block.mark, block.at, block.at + block.size);
    const isWhole = (block, size) => bytes().subarray(block.at, block.at + size).every((byte) => byte === block.mark);
    for (let turn = 0; turn < 4000; turn += 1) {
        const block = blocks[chance(Math.max(1, blocks.length))], size = 1 + chance(1 << chance(16));
        if (block && !isWhole(block, block.size)) return [`turn ${turn}`, wasFull];
        if (!block || chance(3) > 0) {
            const at = heap.take(size);
            if (at % 16 || (at && at < 1000)) return [`a block at ${at}`, wasFull];
            if (at) fill(blocks[blocks.push({ at, size, mark: 1 + chance(255) }) - 1]);
            else wasFull = true;
        } else if (chance(2)) {
            const kept = Math.min(block.size, size), at = heap.change(block.at, kept, size);
            if (!at) { wasFull = true; continue; }
            block.at = at;
            if (!isWhole(block, kept)) return [`what was kept in turn ${turn}`, wasFull];
            block.size = size;
            fill(block);
        } else {
            heap.giveBack(block.at);
            blocks.splice(blocks.indexOf(block), 1);
        }
    }
    return [blocks.find((block) => !isWhole(block, block.size)) ? "a block at the end" : null, wasFull];
})()"""


def halves(value):
    """The two halves of a number of 128 bits as WebAssembly hands them over: with signs."""
    return [str((value >> places & 2**64 - 1) - (2**64 if value >> places + 63 & 1 else 0)) for places in (0, 64)]


def cases_of_sums():
    """The functions, each with its numbers, and what comes of them."""
    numbers = EDGES + [random.Random(9).getrandbits(128) - 2**127 for _ in range(20)]
    for one, other in itertools.product(numbers, EDGES):
        yield ["__multi3", *halves(one), *halves(other)], one * other
    for (name, shift), value, places in itertools.product(SHIFTS.items(), numbers, PLACES):
        yield [name, *halves(value), places], shift(value, places)


def worker_alone(opened):
    """What the machine has for its compiler, and what it needs around it, is right by itself."""
    page = opened("about:blank")
    page.js(f"{script('machine')} const {{ answer, imports, Heap }} = machine_js; 0")
    page.js(f"const module_given = fetch('data:application/wasm;base64,{base64.b64encode(engine.engine()).decode('ascii')}').then((given) => given.arrayBuffer()); 0")
    calls, due = zip(*cases_of_sums())
    got = page.js(CALLS.replace("CASES", json.dumps(calls)))
    wrong = [call for call, halves_of_sum, value in zip(calls, got, due) if int(halves_of_sum[0]) + (int(halves_of_sum[1]) << 64) != value % 2**128]
    yield f"{len(calls)} products and shifts of 128 bits", f"wrong: {wrong[:3]}" if wrong else None
    for most, times in ((1 << 32, 1), (20000000, 2)):
        status, length, size, made, is_small = page.js(ASKED.replace("MOST", f"{most}").replace("JOB", json.dumps(LONG)))
        good = (status, made, is_small) == (0, times, True) and length == size > LEAST
        yield f"a long text in a memory of {most} bytes", None if good else f"status {status}, {length} of {size} bytes, {made} instances"
    got = page.js(BLOCKS)
    yield "the heap", None if got == [None, True] else f"{got}"
    page.close()
