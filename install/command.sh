#!/bin/sh
# Puckerledge, installed: what it knows itself stands in front.sh; the program is beside that.
parts=$(readlink -f "$0")
parts=${parts%/bin/*}/lib/puckerledge
program=$parts/puckerledge
# shellcheck disable=SC2034 # front.sh reads it
commands=$parts/COMMANDS.md
version() { cat "$parts/version"; }
# shellcheck source=install/front.sh
. "$parts/front.sh"
answer "$@"
hand_on "$@"
