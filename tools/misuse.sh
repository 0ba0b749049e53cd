#!/usr/bin/env bash
# Shows that the order of a sweep is kept by the check: it refuses a step forward on a turned sweep, a
# step forward on a sweep that was turned away, and a step back before turning, each for that reason,
# and it accepts the same steps in their order. It writes a crate for each over a copy of this
# repository's crates, in a folder of its own, which it removes. Status 0 where all is so. It takes
# about a minute where the crates were proved before, and the time of their proofs where they were not.
set -u
top=$(cd "$(dirname "$0")/.." && pwd) || exit
made=$(mktemp -d) || exit
trap 'rm -rf "$made"' EXIT

cp "$top/crates.txt" "$made/" || exit
for crate in "$top"/crates/*/; do
    to=$made/crates/$(basename "$crate")
    mkdir -p "$to"
    for part in src specs proofs; do
        if [ -d "$crate$part" ]; then cp -r "$crate$part" "$to/" || exit; fi
    done
done

# write NAME BODY: a crate whose one function takes the lines of BODY.
write() {
    mkdir -p "$made/crates/$1/src"
    echo "$1: scalar shape state sweep" >>"$made/crates.txt"
    cat >"$made/crates/$1/src/lib.rt" <<END
//! Steps of a sweep, one forward and one back, in some order.
#![tactic(auto)]

use scalar::Wrap;
use state::{Parts, Script};
use sweep::{StepFault, Sweep};

pub fn steps(
    sweep: Sweep,
    script: Script<Wrap>,
    state: &mut Parts<&mut [Wrap]>,
    weights: &mut Parts<&mut [Wrap]>,
    ws: &mut [Wrap],
    work: &mut [Wrap],
) -> Result<(), StepFault> {
    let mut sweep = sweep;
$2
}
END
}

failed=0

check() {
    (cd "$made/crates/$1" && rt check >"$made/$1.log" 2>&1)
}

# accepted NAME WHAT
accepted() {
    if check "$1"; then
        echo "$2: accepted"
    else
        echo "$2: NOT ACCEPTED"
        cat "$made/$1.log"
        failed=1
    fi
}

# refused NAME WHAT WHY: refused by one error alone, which WHY, a pattern, matches.
refused() {
    if check "$1"; then
        echo "$2: NOT REFUSED"
        failed=1
    elif [ "$(grep -c 'error\[' "$made/$1.log")" = 1 ] && why=$(grep -E "error\[$3" "$made/$1.log"); then
        echo "$2: refused: ${why#*: }"
    else
        echo "$2: REFUSED FOR ANOTHER REASON"
        cat "$made/$1.log"
        failed=1
    fi
}

write in_order '    sweep.step(script, state, work)?;
    let mut turned = sweep.turn();
    turned.back(script, weights, ws, work)'

write forward_on_turned '    let mut turned = sweep.turn();
    turned.step(script, state, work)?;
    turned.back(script, weights, ws, work)'

write forward_after_turning '    let mut turned = sweep.turn();
    sweep.step(script, state, work)?;
    turned.back(script, weights, ws, work)'

write back_before_turning '    sweep.step(script, state, work)?;
    sweep.back(script, weights, ws, work)'

accepted in_order "a step forward, turned, a step back"
refused forward_on_turned "a step forward on a turned sweep" \
    'unknown-method\]: no method named `step` found for type `Turned`'
refused forward_after_turning "a step forward on a sweep that was turned away" \
    'borrow-e0382\]: borrow of moved value: `sweep`'
refused back_before_turning "a step back before turning" \
    'unknown-method\]: no method named `back` found for type `Sweep`'
exit $failed
