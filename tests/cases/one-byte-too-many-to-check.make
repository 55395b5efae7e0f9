#!/usr/bin/env bash
# One byte more than check may read.
head -c 268435457 /dev/zero
