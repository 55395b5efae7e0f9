"""Runs the job of standard input, and writes its report."""
import sys

import kdf9

try:
    sys.stdout.write(kdf9.run(sys.stdin.buffer.read()))
except kdf9.Refused as why:
    print(why)
    if why.line:
        print(f"line {why.line}, column {why.column}: {why.subject}", file=sys.stderr)
    sys.exit(why.status)
