#!/usr/bin/env bash
# One byte more than resume may read.
head -c 268435457 /dev/zero
