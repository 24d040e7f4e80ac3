#!/usr/bin/env bash
# Builds the library for C: its proved part over what `rt ci` has proved, which stays in
# crates/hcc_c/out/ with the verdict's line, and the whole of it in src/out/. In a fresh checkout rt ci
# leaves each library's statements, with no stamp, for which rt lib would prove them all again. Where
# that can't be done, or a developer's own libraries stand there, rt lib does it. For another processor
# all of that lies in a folder TARGET of these two; a developer's own libraries are taken as they are then.
# Usage: [KEPT=FOLDER] tests/c/library.sh [TARGET]    as aarch64-unknown-linux-gnu
# With KEPT, what is proved over statements is kept in that folder, and what an earlier run kept there is
# taken: a function's proof is the same for each processor. KEPT.done has it as the first run left it.
set -eu -o pipefail
cd "$(dirname "$0")/../.."
crates=$PWD/crates
target=${1-}
out=$crates/hcc_c/out${target:+/$target}
kit=$(dirname "$(dirname "$(readlink -f "$(command -v rattle)")")")

# Builds the proved part over the statements that rt ci left, if it left all.
over_statements() {
    local dep words=(--crate-name hcc_c src/lib.rt --extern "std=$kit/rlibs/std.rlib")
    for dep in $(sed -nE 's/^hcc_c( [^:]*)?: *(.*)/\2/p' crates.txt); do
        if [[ ! -d $crates/$dep ]]; then
            words+=(--extern "$dep=$kit/rlibs/$dep.rlib")
        elif [[ -d $crates/$dep/out/rlib/$dep.rlib && ($target || ! -f $crates/$dep/out/rlib/stamp) ]]; then
            words+=(--extern "$dep=$crates/$dep/out/rlib/$dep.rlib")
            words+=(-L "dependency=$crates/$dep/out/rlib")
        else
            return 1
        fi
    done
    words+=(-L "dependency=$kit/rlibs" --antt-project "$kit/rattle/logic/antt-project.json")
    words+=(--logic-built "$kit/logic_built" --links hcc_c= --crate-type staticlib)
    words+=(--jobs "${JOBS:-$(nproc)}" --toolchain "$kit/toolchain" --backend llvm)
    [[ -z ${KEPT-} ]] || words+=(--incremental "$KEPT")
    (cd "$crates/hcc_c" && rattle build "${words[@]}" ${target:+--target "$target"} -o "$out/libhcc_c.a")
}

# Does it by rt lib.
by_rt() {
    [[ -z $target ]] && cd "$crates/hcc_c" && rt lib
}

mkdir -p "$out"
{ over_statements || (by_rt); } 2>&1 | tee "$out/said"
grep '^logic=proved ' "$out/said" | tail -n 1 > "$out/verdict"
if [[ -d ${KEPT-} && ! -d $KEPT.done ]]; then
    cp -al "$KEPT" "$KEPT.being" && mv "$KEPT.being" "$KEPT.done"
fi
make -s -C src TARGET="$target"
