#!/usr/bin/env bash
# A good job of as many bytes as there may be: its deck begins with that many spaces.
cd "$(dirname "$0")/../.." || exit 1
head -n 4 examples/adds-5-and-7.job
head -c 4194175 /dev/zero | tr '\0' ' '
tail -n +5 examples/adds-5-and-7.job
