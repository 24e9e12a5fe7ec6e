# What the scripts that write test cases and the walk-through's files share. The variable out is the folder of the cases.

# byte N..: the bytes of these numbers
byte() { for n in "$@"; do printf "\\$(printf '%03o' "$n")"; done; }
# rec KIND LABEL NAME PARENT [CLIENT]: a record
rec() { byte "$1" "$2" "$3" 0 $(($4 % 256)) $(($4 / 256)) $((${5:-0} % 256)) $((${5:-0} / 256)); }
# step ACTOR PARTNER: a step of a script
step() { byte $(($1 % 256)) $(($1 / 256)) $(($2 % 256)) $(($2 / 256)); }
# zeros N
zeros() { [ "$1" -eq 0 ] || head -c "$1" /dev/zero; }
# classes: label 1 boundary, 2 high, every other low
classes() { byte 0 2 1; zeros 61; }
# case NAME: makes the folder of a case the current one
case_() { mkdir -p "$out/$1"; cd "$out/$1"; }
a() { rec 1 1 0 0; rec 1 2 1 1; }
