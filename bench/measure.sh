#!/bin/sh
# Times a program against what is wanted of it: measure.sh [PROGRAM [NAME ..]], with the names of measure.py. Without a program it proves
# and builds it first, by `rt run`. It wants Python and `rustc`, and is no part of the gate.
set -e
here=$(cd "$(dirname "$0")" && pwd)
program=$1
[ $# -gt 0 ] && shift
if [ -z "$program" ]; then
    (cd "$here/../crates/autarky" && rt run -- run "$here/loop.toml" "$here/signers.toml" "$here/loop.script" >/dev/null)
    program="$here/../crates/autarky/out/autarky"
fi
python3 "$here/measure.py" "$program" "$@"
