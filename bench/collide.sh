#!/bin/bash
# The time that `check` takes where the ids are chosen to fall into one group of the table that counts them, against plain ids.
#   bench/collide.sh [PROGRAM]          (needs a C compiler, and the program built by ./vkbuild where none is named)
source "$(dirname "$0")/timed_check.sh"
cc -O2 -o collide "$top/bench/collide.c"
for count in 10000 20000 40000 100000; do
  for bits in 0 13; do
    ./collide "$count" "$bits" >text.adoc
    timed_check
    printf '%6d ids, %2d bits of the hash alike  %.2f s\n' "$count" "$bits" "$seconds"
  done
done
