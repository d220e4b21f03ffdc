# shellcheck shell=sh
# Read by the scripts that put the C engine of bench/ in the library's place: sets `names`, the
# words for a compiler that give the engine's functions the library's names.
names=
for call in check load grade list list_looks next take run take_bounded run_bounded deliberate go_on save restore text print name; do
    names="$names -Dengine_$call=rigtemple_4_${call}_parts"
done
