#!/usr/bin/env bash
# One byte more than a job that is watched may have.
head -c 4194305 /dev/zero
