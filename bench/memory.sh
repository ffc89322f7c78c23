#!/bin/sh
# Refuses each request for memory of some calls in turn: each must end with "out of memory", or as it does without a refusal, and what
# was written must be a prefix of what is written without. Prints for each call how many requests there were and how they ended.
# refuse.c says how it is done; it needs gcc, and a program of Rattle asks by malloc and realloc alone. Give the program, or
# ../katara's is taken; a second word tries only the calls whose name begins with it. All of them take some ten minutes.
here=$(cd "$(dirname "$0")" && pwd) || exit 1
program=${1:-$here/../crates/kat_program/out/kat_program}
program=$(cd "$(dirname "$program")" && pwd)/$(basename "$program") || exit 1
only=$2
work=$(mktemp -d) || exit 1
trap 'rm -rf "$work"' EXIT
gcc -O2 -shared -fPIC -o "$work/refuse.so" "$here/refuse.c" -ldl || exit 1
cd "$work" || exit 1
gallery=$here/../examples/gallery
worst=0

# a call with a name, whose words follow
try() {
    name=$1
    shift
    case $name in "$only"*) ;; *) return 0 ;; esac
    "$program" "$@" >whole 2>/dev/null
    status=$?
    rm -f counted
    env WHOLE=whole STATUS=$status COUNTED=counted LD_PRELOAD="$work/refuse.so" "$program" "$@" >output 2>/dev/null
    ended=$?
    if [ $ended != $status ] || ! cmp -s whole output || ! grep -q ', 0 otherwise; 0 write' counted; then
        worst=1
        echo "WRONG: ended with $ended"
    fi
    echo "$name (status $status): $(cat counted)"
}

cat >flag.type <<'TYPE'
type flag
state on: bool = false
op raise() rank 0: on := true
query get(): bool = on
TYPE
cat >signed.type <<'TYPE'
type signed
state n: int = 0
op add(x: int) rank 0: n := n + x
query get(): int = n
TYPE
cat >signed.script <<'SCRIPT'
replicas 2
do 1 add 5
do 2 add -8
ship 2 p
deliver p 1
ask 1 get
SCRIPT
cat >cart.type <<'TYPE'
type cart
state c: table name -> nat = 0
op add(x: name, n: nat) rank 0: c[x] := c[x] + n
query count(x: name): nat = c[x]
TYPE
cat >cart.script <<'SCRIPT'
replicas 3
do 1 add "milk" 2
do 2 add "milk" 3
do 3 add "eggs" 12
ship 2 p
ship 3 q
deliver p 1
deliver p 1
do 2 add "milk" 1
ship 2 r
deliver q 1
ask 1 count "milk"
ask 2 count "milk"
ask 1 count "eggs"
SCRIPT
cat >set.script <<'SCRIPT'
replicas 2
do 1 insert "a"
do 2 remove "a"
ship 1 p
ship 2 q
deliver p 2
deliver q 1
ask 1 contains "a"
ask 2 contains "a"
SCRIPT
cat >deltas.script <<'SCRIPT'
replicas 2
do 1 add "milk" 2
delta 1 p from 0
do 1 add "milk" 3
delta 1 q from 1
deliver p 2
deliver q 2
deliver q 2
ask 2 count "milk"
show 2
SCRIPT
printf 'do add "milk" 2\ndo add "eggs" 1\n' >actions
printf 'ask count "milk"\n' >questions
"$program" synth flag.type --size 3 >flag.design 2>/dev/null
"$program" synth signed.type --size 7 --kinds tally >signed.design 2>/dev/null
"$program" synth cart.type --size 4 >cart.design 2>/dev/null
"$program" node-new cart.design --replica 1 >one.state
"$program" node-new cart.design --replica 2 >empty.state
"$program" node-step cart.design empty.state actions >two.state
try 'list flag' list flag.type --size 3
try 'audit four_stars' audit "$gallery/four_stars/four_stars.type" "$gallery/four_stars/four_stars.report" --size 3
try 'synth flag' synth flag.type --size 3
try 'converge set' converge "$here/../examples/designs/element_set.design" set.script
try 'model signed' model signed.type signed.script
try 'run signed' run signed.type signed.design signed.script
try 'run cart' run cart.type cart.design cart.script
try 'model cart' model cart.type cart.script
try 'check cart' check cart.type cart.design
try 'migrate flag' migrate flag.type "$here/../examples/checks/flag.design"
try 'deltas cart' deltas cart.type cart.design deltas.script
try 'node-new cart' node-new cart.design --replica 1
try 'node-step cart' node-step cart.design one.state actions two.state
try 'node-ask cart' node-ask cart.type cart.design two.state questions
try 'synth signed' synth signed.type --size 7 --kinds tally
try 'synth cart' synth cart.type --size 4
exit $worst
