#!/usr/bin/env bash
# Writes a job whose deck has more than 100,000 bytes and whose image fills the largest store: the sum of the constants V1 to V8000, which are
# the numbers from 1 to 8000, goes to the last word.
printf '%s\n' 'KDF9 JOB 1' 'SLOT 0' 'STORE 8192' 'DECK'
cat <<'DECK'
Y186;
PROGRAM V8000;
V0 = Q8000/1/AV1;            (so many words, one after the other, from V1 on)
DECK
for ((n = 1; n <= 8000; n++)); do
  echo "V$n = $n;"
done
cat <<'DECK'
  V0; =Q1; ZERO;
1; M0M1Q; +; J1C1NZ;         (the next word is added, while the counter isn't 0)
  =Y186; ZERO; OUT;          (the last word of the store)
FINISH;
DECK
printf '%s\n' 'ENDDECK' 'SHOW 8184 8191' 'SCHEDULE' 'ORDERS 30000' 'ENDJOB'
