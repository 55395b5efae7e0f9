#!/usr/bin/env bash
# One byte more than a job may have.
head -c 4194305 /dev/zero
