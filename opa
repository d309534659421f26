#!/bin/sh
# Runs the program `opa` with the words given: see tools/launch.
exec "$(dirname -- "$(readlink -f -- "$0")")/tools/launch" opa "$@"
