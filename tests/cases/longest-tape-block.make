#!/usr/bin/env bash
# A block of tape with as many characters as it may have.
cd "$(dirname "$0")/../.." || exit 1
sed "7c DEVICE 1 MT A\\n+$(printf %032768d 0)" examples/adds-5-and-7.job
