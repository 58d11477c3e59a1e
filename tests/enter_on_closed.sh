#!/bin/sh
# Entering on a closed sheet is an error of the compiler, which no must-fail edit can show, since it
# never comes to a proof. This compiles such a program outside the repository and fails unless the
# compiler refuses it because a closed sheet has no `enter`. The same program on an open sheet must
# compile and run, so that nothing else is what was refused. Nothing is proved here.
set -eu
root=$(cd "$(dirname "$0")/.." && pwd)
work=$(mktemp -d)
trap 'rm -rf "$work"' EXIT

{
    grep -E '^(kinds|runs|cells|sheets):' "$root/crates.txt"
    echo "enters: kinds runs cells sheets"
} >"$work/crates.txt"
mkdir -p "$work/crates/enters/src"
for name in kinds runs cells sheets; do
    mkdir "$work/crates/$name"
    for part in src specs proofs; do
        if [ -d "$root/crates/$name/$part" ]; then
            cp -R "$root/crates/$name/$part" "$work/crates/$name/"
        fi
    done
done

# compile END: a program that enters on a sheet made and then ended by END
compile() {
    cat >"$work/crates/enters/src/main.rt" <<PROGRAM
//! Enters on a sheet.
#![tactic(auto)]

use kinds::Counts;
use sheets::Sheet;

fn main(rt: HostRuntime) {
    let mut sheet = Sheet::make(1, Vec::new(rt.alloc()))$1;
    let _ = sheet.enter(Counts::from(1));
}
PROGRAM
    (cd "$work/crates/enters" && rt try) >"$work/said" 2>&1
}

if ! compile ""; then
    cat "$work/said"
    echo "enter_on_closed: entering on an open sheet should compile" >&2
    exit 1
fi
if compile ".close()"; then
    echo "enter_on_closed: entering on a closed sheet compiled" >&2
    exit 1
fi
if ! grep -q 'error\[unknown-method\]: no method named `enter` found for type `ClosedSheet' "$work/said"; then
    cat "$work/said"
    echo "enter_on_closed: refused for another reason" >&2
    exit 1
fi
echo "enter_on_closed: the compiler refuses entering on a closed sheet"
