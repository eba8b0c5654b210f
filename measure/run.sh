#!/bin/sh
# Prints how fast sealing and opening are beside Rust, what the board's calls take of the stack, and what memory a board asks
# for:
#
#     sh measure/run.sh [REVISION]
#
# With a revision of git its crates are compiled too, and its sealing and opening measured as `before`.
#
# It needs the Rattle kit (rt on the path, or RATTLE_HOME), gcc and rustc; for the count of instructions valgrind; for a
# revision git. Nothing is proved here: it measures what the kit's compiler makes of the code, at -O3 for the processor at
# hand. All that it makes lies in target/measure/.
set -eu
here=$(cd "$(dirname "$0")" && pwd -P)
root=$(dirname "$here")
work=$root/target/measure
machine=$(uname -m)

give_up() {
    echo "measure: $*" >&2
    exit 2
}
[ $# -le 1 ] || give_up "one revision at most: sh measure/run.sh [REVISION]"
for tool in rt gcc rustc; do
    command -v "$tool" >/dev/null || give_up "$tool is not found on the path"
done
kit=${RATTLE_HOME:-$(dirname "$(dirname "$(readlink -f "$(command -v rt)")")")}
tools=$kit/on/$machine/toolchain
clang=$tools/bin/clang
[ -x "$clang" ] || give_up "the Rattle kit at $kit has no compiler for $machine"
revision=
if [ $# -eq 1 ]; then
    command -v git >/dev/null || give_up "git is not found on the path, and $1 is a revision of git"
    revision=$(git -C "$root" rev-parse --verify --quiet --end-of-options "$1^{commit}") ||
        give_up "git knows no revision $1"
fi

# Both sides are compiled for the same plain processor.
case $machine in
x86_64) ours=-march=x86-64 theirs=x86-64 ;;
*) ours=-mcpu=generic theirs=generic ;;
esac

# ---- the crates, now and before, each in a repository of their own: without stored scripts, so that `rt try` has nothing
# ---- to run, and with a program beside them that calls nothing
repository() { # FROM SIDE CRATES: makes $work/SIDE, whose program that calls nothing has these crates besides
    mkdir -p "$work/$2/crates/small/src"
    (cd "$1" && find crates -path '*/src/*' -name '*.rt') | while IFS= read -r file; do
        mkdir -p "$work/$2/$(dirname "$file")"
        cp "$1/$file" "$work/$2/$file"
    done
    echo 'fn main() {}' >"$work/$2/crates/small/src/main.rt"
    {
        cat "$1/crates.txt"
        echo "small: octets answers cipher frames board seals network aps tlvs commands router$3"
    } >"$work/$2/crates.txt"
}
rm -rf "$work"
mkdir -p "$work/revision"
repository "$root" now ' text labels'
if [ "$revision" ]; then
    git -C "$root" archive -o "$work/revision.tar" "$revision" crates crates.txt || give_up "the revision $1 has no crates"
    tar -xf "$work/revision.tar" -C "$work/revision"
    repository "$work/revision" before ''
fi

# ---- a kit of links whose clang keeps the module that it is handed
links() { # FROM TO BUT: links in TO to all in FROM but one
    mkdir -p "$2"
    for file in "$1"/*; do
        [ "$file" = "$1/$3" ] || ln -s "$file" "$2/"
    done
}
links "$kit" "$work/kit" on
links "$kit/on/$machine" "$work/kit/on/$machine" toolchain
links "$tools" "$work/kit/on/$machine/toolchain" bin
links "$tools/bin" "$work/kit/on/$machine/toolchain/bin" clang
cat >"$work/kit/on/$machine/toolchain/bin/clang" <<END
#!/bin/sh
case " \$* " in *" -O3 "*) cp module.bc "$work/module.bc" && chmod 644 "$work/module.bc" ;; esac
exec "$clang" "\$@"
END
chmod +x "$work/kit/on/$machine/toolchain/bin/clang"

# ---- what is measured with
module() { # SIDE PROGRAM PREFIX FUNCTIONS: makes $work/SIDE/PROGRAM.o, in which the functions can be called from C
    made=$work/$1/$2
    rm -f "$work/module.bc"
    (cd "$work/$1" && RATTLE_HOME=$work/kit rt try "$2") >"$made.log" 2>&1 || {
        cat "$made.log" >&2
        give_up "rt try $2 failed in $work/$1"
    }
    [ -f "$work/module.bc" ] || give_up "rt try $2 handed no module to its compiler in $work/$1"
    "$clang" -S -emit-llvm -x ir "$work/module.bc" -O0 -Xclang -disable-llvm-passes \
        --target=x86_64-unknown-linux-gnu -o "$made.x86_64.ll"
    PREFIX=$3 CALLABLE=$4 awk -f "$here/callable.awk" "$made.x86_64.ll" >"$made.ll"
    "$clang" --target="$machine-unknown-linux-gnu" $ours -O3 -fPIC -ffunction-sections -fdata-sections --no-default-config \
        -mllvm -trap-unreachable -mllvm -no-trap-after-noreturn -Wno-override-module -c -x ir "$made.ll" -o "$made.o"
}
harness() { # SOURCE OUT OBJECTS: links a harness with what it calls
    source=$1 out=$2
    shift 2
    gcc -O2 -I "$here" "$here/$source" "$here/cases.c" "$@" -Wl,-z,now -lpthread -ldl -lm -o "$work/$out"
}
count() { # HARNESS: instructions of its calls
    valgrind -q --tool=callgrind --callgrind-out-file="$work/$1.callgrind" "$work/$1" count
    "$work/$1" names >"$work/$1.names"
    # Part 1 is all before the first mark, part 2 a call of nothing, part 3 what lies between, part 4 the first side, and
    # so on.
    part=2
    while [ -f "$work/$1.callgrind.$part" ]; do
        sed -n 's/^totals: //p' "$work/$1.callgrind.$part"
        part=$((part + 2))
    done | awk 'NR == FNR { name[NR] = $1; beside[NR] = $2; steps[NR] = $3; next }
        FNR == 1 { base = $1; next }
        FNR % 2 == 0 { ours = $1 - base; next }
        {
            i = (FNR - 1) / 2
            theirs = $1 - base
            if (beside[i] != beside[i - 1])
                printf "%-16s %9s %9s %7s   instructions of a call with its callees\n", "count", "now", beside[i], "ratio"
            printf "%-16s %9d %9d %7.2f\n", name[i], ours, theirs, ours / theirs
            if (steps[i])
                printf "  each of %-6d %9.3f %9.3f %7.2f\n", steps[i], (ours - our_last) / steps[i],
                    (theirs - their_last) / steps[i], (ours - our_last) / (theirs - their_last)
            our_last = ours
            their_last = theirs
        }' "$work/$1.names" -
}
if command -v valgrind >/dev/null && echo '#include <valgrind/callgrind.h>' | gcc -E - >/dev/null 2>&1; then
    counted=yes
else
    counted=
fi
speed() { # HARNESS: time, instructions and stack of its calls
    "$work/$1" time
    if [ "$counted" ]; then
        count "$1"
    else
        echo "count: no valgrind, so instructions are not counted"
    fi
    "$work/$1" stack
}

# ---- what is compiled
calls='board::state::make board::mark::next_mark board::mark::move_mark board::keys::install board::keys::switch
    board::partners::add_link board::partners::remove_link board::rows::forget commands::writer::write_command
    commands::reader::read_command network::opening::open_frame network::sealing::seal_frame network::looking::look_frame
    aps::opening::open_frame aps::sealing::seal_frame aps::looking::look_frame router::routing::route
    router::routing::portion_of'
labels='labels::reading::read_label labels::printing::print_label' # no earlier revision need have them
module now vectors '' 'cipher::seal cipher::unseal cipher::keyed_hash'
module now small '' "$calls $labels board::rows::find_row"
module now bench '' "$calls $labels"
[ -z "$revision" ] || module before small before__ "$calls"
rustc --edition 2021 -C opt-level=3 -C panic=abort -C codegen-units=1 -C target-cpu=$theirs --crate-type staticlib \
    "$here/reference.rs" -o "$work/libreference.a"
harness frames.c frames "$work/now/small.o" ${revision:+-DBEFORE "$work/before/small.o"} "$work/libreference.a"
harness harness.c cipher "$work/now/vectors.o" "$work/libreference.a"
harness stack.c calls-small "$work/now/small.o"
harness stack.c calls-bench "$work/now/bench.o"

# ---- what is printed
echo "All for $machine ($theirs). Columns: now is the Rattle of this tree${revision:+, before that of $1};"
echo "rust_dbl is Rust that doubles and adds octets, rust_wrd words, and rust_tab the ordinary table program in Rust."
echo
echo "Whole network frames, 98 octets plain and 116 secured. The sender's row is 16 of 32, with lists of 1,024 rows the one"
echo "that the name says, of a sender heard before or new; what one of 511 rows costs stands below the second of these."
echo "At the end the search for a row alone, the last of 512, beside Rust's."
speed frames
echo
echo "The cipher alone, 22 octets authenticated and 90 of payload"
speed cipher
for program in small bench; do
    echo
    echo "The board's calls, in the program $program"
    "$work/calls-$program" stack 3072
done
