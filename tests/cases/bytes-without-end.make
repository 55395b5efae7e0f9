#!/usr/bin/env bash
# Many times the bytes that a job may have.
head -c 20000000 /dev/zero
