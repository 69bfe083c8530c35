#!/bin/bash
# Leaves target/staticlib/libpit_c.a as the sources are, proved: builds it where what is there was built of others.
set -eu
root=$(readlink -f "$0")
root=${root%/*/*}
speaker=library
. "$root/tools/build.sh"
provide target/staticlib/libpit_c.a pit_c
