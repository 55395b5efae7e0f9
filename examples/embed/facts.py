"""Says of each program of a job in standard input what became of the calls of the machine."""
import sys

import kdf9

try:
    facts = kdf9.facts(sys.stdin.buffer.read())
except kdf9.Refused as why:
    sys.exit(f"{why.name}: {why.sentence}")
for program in facts.calls:
    calls, held = program.calls, program.calls.held
    print(f"slot {program.slot} of {facts.made} calls: {calls.running} running, {calls.ready} ready, {held.group + held.device + held.pool} held up")
