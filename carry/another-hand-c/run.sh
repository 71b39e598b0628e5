#!/bin/sh
# run.sh SEED SCALE: every call, one after the other, SCALE times 1,000 cases of the dearest. The stack is held to about 1 MB (ynv.h:
# "uses less than 1 MB of stack").
s=$1; k=$2
ulimit -s 1100
for c in cell_bounds:2 cell_for_position:4 count_seams:1 spot_for_position:3 pick_poly:1 export_obj:1 reachable:1 parse:2 serialize:1; do
  nice -n 10 ./fuzz ${c%:*} $s 0 $((${c#*:} * k * 1000)) | cut -c1-4000
done
date
