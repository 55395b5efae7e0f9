#!/usr/bin/env bash
# One line of the schedule more than there may be.
cd "$(dirname "$0")/../.." || exit 1
sed '$d' examples/adds-5-and-7.job
yes 'END 0' | head -n 500000
echo ENDJOB
