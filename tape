#!/usr/bin/env bash
# Runs the program `tape` with the words given, on standard input: `building/program` tells how.
here=$(readlink -f "${BASH_SOURCE[0]}")
. "${here%/*}/building/program" tape "$@"
