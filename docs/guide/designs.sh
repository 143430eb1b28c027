#!/bin/bash
# Takes larger designs through the flows of yosys, abc and a library, and compares each netlist with the design as it is written.
# usage: designs.sh [-f FLOW] DESIGN ..; here are DESIGN.v and cells.lib. Prints a line for each design and flow; FLOW is one of
# gates, tables, ice40, ecp5, xilinx, gowin, gowin-noalu, liberty, abc, and all of them without it.
flows="gates tables ice40 ecp5 xilinx gowin gowin-noalu liberty abc"
[ "$1" != -f ] || { flows=$2; shift 2; }
verdict() { # the files
  eqc --nodes 1048574 "$1" "$2" | head -1
}
compare() { # further options of prepare
  if prepare --cut --unused --constants --merged --short "$@" "$gold" "$new" 2> "$design.$flow.log"; then
    verdict "${gold%.blif}.ready.blif" "${new%.blif}.ready.blif"
  else
    grep -E 'only|contradiction|eqc takes|eqc reads|number' "$design.$flow.log" | head -1
  fi
}
for design; do
  gold=$design.gold.blif
  top="read_verilog $design.v; hierarchy -check -top $design"
  # A state machine keeps its code where no flow has an option for that.
  fpga="$top; setattr -set fsm_encoding \"none\" w:*"
  synth="read_verilog $design.v; synth -top $design -flatten -nofsm -nordff"
  yosys -q -p "$top; proc; memory -nordff; setundef -undriven -zero; opt -nodffe -nosdff; techmap; opt_clean; write_blif -cname $gold" > log 2>&1
  for flow in $flows; do
    new=$design.$flow.blif options=()
    case $flow in
    gates) script="$synth; write_blif $new" ;;
    tables) script="$synth -lut 4; opt_clean; write_blif $new" ;;
    ice40) script="$fpga; synth_ice40 -top $design -nobram; opt_clean; write_blif -param $new" options=(--fpga ice40) ;;
    ecp5) script="$fpga; synth_ecp5 -top $design -nobram -nolutram -nodsp; opt_clean; write_blif -param $new" options=(--fpga ecp5) ;;
    xilinx)
      script="$fpga; synth_xilinx -top $design -flatten -nobram -nolutram -nosrl -nodsp; opt_clean; write_blif -param $new"
      options=(--fpga xilinx) ;;
    gowin*)
      script="$fpga; synth_gowin -top $design -nobram -nolutram ${flow#gowin}; opt_clean; write_blif -param $new"
      options=(--fpga gowin) ;;
    liberty)
      script="$synth; dfflibmap -liberty cells.lib; abc -liberty cells.lib; opt_clean; write_blif -gates $new"
      options=(--liberty cells.lib) ;;
    abc)
      prepare --cut --unused "$gold" 2> log
      berkeley-abc -q "read_blif ${gold%.blif}.ready.blif; strash; dc2; if -K 6; write_blif $new" > log 2>&1
      echo "$design $flow $(verdict "${gold%.blif}.ready.blif" "$new")"
      continue ;;
    esac
    yosys -q -p "$script" > log 2>&1
    echo "$design $flow $(compare "${options[@]}")"
  done
done
