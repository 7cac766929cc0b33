# Shared by the scripts of bench/: words to count over, the counting of a run, and the table. A script sets root, bench
# and out, reads tools/lib.sh and then this file.
# shellcheck shell=sh
# shellcheck disable=SC2154

# ── words ──

# fetch NAME: the words of that kind's libc, as $out/NAME.words.
fetch() {
    [ ! -s "$out/$1.words" ] || return 0
    package=libc6-$1-cross
    rm -rf "$out/$1" "$out/$package"_*.deb
    mkdir -p "$out/$1"
    (cd "$out" && apt-get -qq download "$package" >/dev/null 2>&1) ||
        { apt-get -qq update >/dev/null 2>&1 && (cd "$out" && apt-get -qq download "$package" >/dev/null 2>&1); } ||
        failed "the package $package cannot be had"
    dpkg -x "$out/$package"_*.deb "$out/$1" || failed "the package $package cannot be unpacked"
    python3 "$bench/words.py" "$(find "$out/$1" -name libc.so.6)" >"$out/$1.part" || failed "$package has no code"
    mv "$out/$1.part" "$out/$1.words"
}

# input NAME SWITCH WIDE BIG: what the programs read. With the switch on they do what is measured, with it off
# everything else.
input() {
    # shellcheck disable=SC2059
    printf "\\00$2\\00$3\\00$4\\000" | cat - "$out/$1.words" >"$out/$1.in$2"
}

# ── counts ──

choose_counter() {
    [ -n "${COUNTER:-}" ] || case $(uname -m) in
        x86_64) COUNTER=valgrind ;;
        *) COUNTER=qemu ;;
    esac
    case $COUNTER in
        valgrind) need_tool valgrind valgrind ;;
        qemu)
            need_tool qemu-x86_64 qemu-user
            cc -O2 -shared -fPIC -o "$out/plugin.so" "$bench/plugin.c" || failed "the plugin does not build"
            libraries=/
            [ -e /lib64/ld-linux-x86-64.so.2 ] || libraries=/usr/x86_64-linux-gnu
            [ -e $libraries/lib64/ld-linux-x86-64.so.2 ] || [ -e $libraries/lib/ld-linux-x86-64.so.2 ] ||
                install_package libc6-amd64-cross ||
                failed "the x86-64 C library cannot be had (package libc6-amd64-cross)"
            ;;
        *) failed "COUNTER is valgrind or qemu" ;;
    esac
}

# counted LABEL SWITCH WORD..: runs the words over standard input and sets count, the instructions of the whole run.
# What they print goes to $out/LABEL.sumSWITCH.
counted() {
    sum=$out/$1.sum$2
    said=$out/$1.said$2
    calls=$out/$1.calls$2
    shift 2
    if [ "$COUNTER" = valgrind ]; then
        valgrind --tool=callgrind --callgrind-out-file="$calls" "$@" >"$sum" 2>"$said" ||
            failed "$* does not run; see $said"
        count=$(awk '/Collected/ {print $NF}' "$said")
    else
        qemu-x86_64 -L "$libraries" -plugin "$out/plugin.so" "$@" >"$sum" 2>"$said" ||
            failed "$* does not run; see $said"
        count=$(awk '/^instructions/ {print $2}' "$said")
    fi
    [ -n "$count" ] || failed "no count for $*; see $said"
}

# total RUN NAME SWITCH: sets count for a run over the input of that name and switch; what it prints goes to
# $out/RUN.NAME.sumSWITCH. A run is named by its program, or by the program and the word that it is given:
# boundary-decode is `boundary decode`.
total() {
    input=$out/$2.in$3
    case $1 in
        *-*) counted "$1.$2" "$3" "$out/${1%%-*}" "${1#*-}" <"$input" ;;
        *) counted "$1.$2" "$3" "$out/$1" <"$input" ;;
    esac
}

# added RUN NAME: sets all_told, what the switch adds to a run.
added() {
    total "$1" "$2" 1
    with=$count
    total "$1" "$2" 0
    all_told=$((with - count))
}

# alone RUN NAME FUNCTION: the instructions spent in the function and what it calls; valgrind only. A generic function's
# name goes on with its types.
alone() {
    callgrind_annotate --inclusive=yes --threshold=100 "$out/$1.$2.calls1" | sed 's/,//g' |
        awk -v plain="$3 [" -v generic="$3::<" 'index($0, plain) || index($0, generic) {print $1; exit}'
}

# measure RUN NAME FUNCTION..: sets all_told, and in_function, with valgrind what the functions take, none of which
# calls another of them.
measure() {
    run=$1
    name=$2
    shift 2
    added "$run" "$name"
    in_function=-
    [ "$COUNTER" = valgrind ] || return 0
    in_function=0
    for function in "$@"; do
        count=$(alone "$run" "$name" "$function")
        [ -n "$count" ] || failed "$function is not a function of its own in $run, so that it cannot be counted alone"
        in_function=$((in_function + count))
    done
}

# ── figures; `-` is for what is not counted ──

per_word() {
    [ "$1" != - ] || { echo - && return 0; }
    awk -v n="$1" -v words="$2" 'BEGIN {printf "%.1f", n / words}'
}

ratio() {
    [ "$1" != - ] || { echo - && return 0; }
    awk -v a="$1" -v b="$2" 'BEGIN {printf "%.2f", a / b}'
}

# hold FIGURE LIMIT TEXT: if the figure is above the limit, adds the text to the list of such figures.
hold() {
    [ "$1" != - ] || return 0
    awk -v x="$1" -v limit="$2" 'BEGIN {exit !(x <= limit)}' || above="$above $3;"
}

# ── the table: a row for each figure, a column for each kind of words ──

columns=

# begin_column NAME: the notes that follow belong to it.
begin_column() {
    column=$out/$1.column
    columns="$columns $1.column"
    : >"$column"
}

# note LABEL FIGURE: a row of the column.
note() {
    echo "$1|$2" | sed -e ':more' -e 's/\(|[0-9]*[0-9]\)\([0-9]\{3\}\)/\1,\2/' -e 'tmore' >>"$column"
}

# table HEAD: the columns side by side, in Markdown, as docs/BENCH.md has them.
table() {
    # shellcheck disable=SC2086
    (cd "$out" && awk -F '|' -v head="$1" '
        FNR == 1 {sub(/\.column$/, "", FILENAME); head = head " | " FILENAME; rule = rule "---|"}
        NR == FNR {label[FNR] = $1}
        {figures[FNR] = figures[FNR] " | " $2}
        END {
            print "| " head " |\n|---|" rule
            for (row = 1; row <= FNR; row++) print "| " label[row] figures[row] " |"
        }' $columns)
}
