# What the shell tools of this folder share: how each is used, and lines that say how far it is. A tool reads
# it in from the top of the repository: `. tools/common.sh`.

tool=$(basename "$0")

# say WORD..: prints a line of this tool.
say() { echo "$tool: $*"; }

# usage: prints the comment at the head of this tool.
usage() { sed -n '2,/^[^#]/s/^# \{0,1\}//p' "tools/$tool"; }

# help_if_asked ARGUMENT..: prints the usage and ends if the first argument is --help.
help_if_asked() {
    case ${1:-} in --help | -h) usage && exit 0 ;; esac
}

# wrong_use WORD..: says what is wrong with the arguments, prints the usage and ends with status 2.
wrong_use() {
    { say "$*" && usage; } >&2
    exit 2
}

# numbers_only ARGUMENT..: refuses an argument that is no number.
numbers_only() {
    for argument in "$@"; do
        case $argument in '' | *[!0-9]*) wrong_use "'$argument' is no number" ;; esac
    done
}

# crates_below CRATE: prints the names of a crate and of all crates of crates.txt that it is built on.
crates_below() {
    awk -v crate="$1" '
        function visit(name,    parts, count, i) {
            if (!(name in built_on) || (name in seen)) return
            seen[name] = 1
            print name
            count = split(built_on[name], parts, " ")
            for (i = 1; i <= count; i++) visit(parts[i])
        }
        { sub(/#.*/, "") }
        # `NAME staticlib: ..` is a static library, `NAME: ..` a library or a program.
        /:/ { split($0, halves, ":"); split(halves[1], words, " "); built_on[words[1]] = halves[2] }
        END { visit(crate) }' crates.txt
}

# crates_of CRATE: prints how many crates of crates.txt it is, with all that it is built on.
crates_of() { crates_below "$1" | wc -l; }

# kit: prints the folder of the Rattle kit.
kit() { guide=$(rt doc) && echo "${guide%/*}"; }

# sum_of_crates: prints a checksum of the kit's identity and of all that the proofs read.
sum_of_crates() {
    {
        rt version
        find crates.txt crates/*/src crates/*/specs crates/*/proofs -type f 2>/dev/null | LC_ALL=C sort | xargs -d '\n' sha256sum
    } | sha256sum | cut -d ' ' -f 1
}

# state_of_crates: prints a checksum of that, and of the libraries and programs in crates/NAME/out.
state_of_crates() {
    {
        sum_of_crates
        for folder in crates/*; do
            name=${folder#crates/}
            for file in "$folder/out/$name" "$folder/out/rlib/$name.rlib/format"; do
                [ ! -f "$file" ] || sha256sum "$file"
            done
        done
    } | sha256sum | cut -d ' ' -f 1
}

# `rt ci` leaves the libraries and programs that it proved in crates/NAME/out. The gate notes their state, and a tool
# that needs one of them takes it, as long as neither it nor a source file has changed, and proves nothing again.
ci_noted=target/ci.state

# note_ci: notes that `rt ci` passed, here and on these files.
note_ci() { mkdir -p target && state_of_crates >"$ci_noted"; }

# ci_stands: whether what `rt ci` left is still that.
ci_stands() { [ -f "$ci_noted" ] && [ "$(cat "$ci_noted")" = "$(state_of_crates)" ]; }

# count_built TOTAL: reads what rt prints, and prints a line for each crate that it begins to prove. Crates that were
# built before have no line.
count_built() {
    built=0
    while IFS= read -r line; do
        case $line in 'rt: chose --jobs '*' for '*) ;; *) continue ;; esac
        built=$((built + 1))
        say "${line##* } ($built, of $1 at most)"
    done
}

# in_crate CRATE WORD..: runs a command in a crate's folder. What it prints is in target/TOOL.log.
in_crate() {
    total=$(crates_of "$1")
    folder=crates/$1
    shift
    mkdir -p target
    {
        status=0
        (cd "$folder" && "$@" </dev/null 2>&1) || status=$?
        echo "status $status"
    } | tee "target/$tool.log" | count_built "$total"
}

# program NAME: proves and builds a program, crates/NAME/out/NAME. It runs too, on nothing: rt has no command that
# only builds one. It is not built again if `rt ci` has just built it.
program() {
    if [ -x "crates/$1/out/$1" ] && ci_stands; then
        say "crates/$1/out/$1 is the one that rt ci proved and built"
        return
    fi
    say "proving and building $1 and what it is built on, $(crates_of "$1") crates"
    in_crate "$1" rt run
    grep -q "^rt: running out/$1;" "target/$tool.log" || { cat "target/$tool.log" && exit 1; }
}

# static_library CRATE ARCHIVE FLAG..: proves a crate and all that it is built on, and writes its static library. The
# flags are those of `rattle build`: --target and --cpu.
static_library() {
    crate=$1
    archive=$2
    shift 2
    mkdir -p "$(dirname "$archive")"
    if ci_stands && over_ci "$@"; then
        return
    fi
    say "proving $crate and what it is built on, $(crates_of "$crate") crates"
    in_crate "$crate" rt lib "$@"
    [ "$(tail -n 1 "target/$tool.log")" = "status 0" ] || { cat "target/$tool.log" && exit 1; }
    cp "crates/$crate/out/lib$crate.a" "$archive"
}

# over_ci FLAG..: for static_library: proves the crate alone, over the libraries that `rt ci` proved and left. `rt lib`
# would build each of them again.
over_ci() {
    at=$(kit)
    for name in $(crates_below "$crate"); do
        [ "$name" = "$crate" ] || set -- "$@" -L "dependency=../$name/out/rlib"
    done
    for name in $(sed -n "s/^$crate staticlib:\([^#]*\).*/\1/p" crates.txt); do
        if [ -d "crates/$name" ]; then
            set -- "$@" --extern "$name=../$name/out/rlib/$name.rlib"
        else
            set -- "$@" --extern "$name=$at/rlibs/$name.rlib"
        fi
    done
    say "proving $crate over the libraries that rt ci proved and built"
    mkdir -p target
    (cd "crates/$crate" && "$at/bin/rattle" build --crate-name "$crate" src/lib.rt --extern "std=$at/rlibs/std.rlib" \
        -L "dependency=$at/rlibs" --antt-project "$at/rattle/logic/antt-project.json" --logic-built "$at/logic_built" \
        --jobs 2 --links "$crate=" --crate-type staticlib --toolchain "$at/toolchain" --backend llvm "$@" \
        -o "$OLDPWD/$archive") >"target/$tool.log" 2>&1 && return
    say "which did not work (target/$tool.log)"
    return 1
}

# machine_and_date: prints on what and when something is timed.
machine_and_date() {
    model=$(sed -n 's/^model name[^:]*: *//p' /proc/cpuinfo | head -n 1)
    echo "${model:+$model, }$(uname -m), $(nproc) cores; $(rustc --version | cut -d ' ' -f 1-2); $(date +%F)"
}
