#!/bin/sh
# Compares each design that is named with its netlist; a stop or a refusal fails too.
failed=0
for design in "$@"; do
  order "$design.gold.blif" > "$design.order"
  eqc --explain --nodes 1048574 --order "$design.order" "$design.gold.blif" "$design.new.blif" > "$design.report"
  case $? in
    0) echo "$design: equivalent" ;;
    1) echo "$design: $(head -1 "$design.report"), see $design.report"; failed=1 ;;
    *) echo "$design: not compared: $(cat "$design.report")"; failed=1 ;;
  esac
done
exit $failed
