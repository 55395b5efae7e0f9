#!/usr/bin/env bash
# As many lines of the schedule as there may be, and one more, of a device that there is not.
cd "$(dirname "$0")/../.." || exit 1
sed '$d' examples/adds-5-and-7.job
yes 'END 0' | head -n 499999
echo 'END 16'
