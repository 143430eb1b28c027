#!/bin/bash
# Takes designs with registers through flows, and compares each netlist with the design as it is written.
# usage: flows.sh DESIGN ..; here are DESIGN.v and cells.genlib. Prints a line for each design.
compare() { # what the flow is called, and further options of prepare
  if prepare --cut --unused "${@:2}" "$gold" "$new" 2> prepared.log; then
    said=$(eqc --nodes 1048574 "${gold%.blif}.ready.blif" "${new%.blif}.ready.blif" | head -1)
  else
    said=$(grep -E 'only|contradiction|number' prepared.log | head -1)
  fi
  line="$line $1 $said,"
}
for design; do
  line="$design:"
  top="read_verilog $design.v; hierarchy -check -top $design"
  synth="read_verilog $design.v; synth -top $design -nofsm -nordff"
  gold=$design.gold.blif new=$design.new.blif
  yosys -q -p "$top; proc; memory -nordff; opt -nodffe -nosdff; techmap; opt_clean; write_blif -cname $gold" > log 2>&1
  yosys -q -p "$synth -flatten; write_blif $new" > log 2>&1
  compare gates
  yosys -q -p "$synth -flatten -lut 4; opt_clean -purge; write_blif -attr -param $new" > log 2>&1
  compare tables
  yosys -q -p "$synth -flatten; abc -genlib cells.genlib; write_blif -gates -conn $new" > log 2>&1
  compare cells --genlib cells.genlib
  yosys -q -p "$synth; write_blif -top $design -cname $new" > log 2>&1
  compare modules
  if ! grep -q '^.subckt' "$gold"; then
    berkeley-abc -q "read_blif $gold; strash; dc2; if -K 6; write_blif $new" > log 2>&1
    compare abc
  fi
  echo "${line%,}"
done
