#!/usr/bin/env bash
# A snapshot after 250,000 lines of a schedule, and 250,001 further lines: one more than there may be.
cd "$(dirname "$0")/../.." || exit 1
snapshot=examples/puts-a-sum-away.report
head -n 9 $snapshot
yes 'END 0' | head -n 249999
sed -n '10,12p' $snapshot
yes 'END 0' | head -n 249999
sed -n '13,$p' $snapshot
yes 'END 1' | head -n 250001
echo ENDJOB
