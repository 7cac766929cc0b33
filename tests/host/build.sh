# Shared by tests/host, tests/pages and tests/threads: programs in C for x86-64, the machine of the library, linked with
# it, and mistakes put between the two. Read after tools/lib.sh; need_x86_cc and need_archive come first.
# shellcheck shell=sh
# shellcheck disable=SC2154

# build_c PROGRAM WORD..: compiles and links with the library.
build_c() {
    program=$out/$1
    shift
    "$x86_cc" -std=c11 -Wall -Wextra -Werror -O2 -I "$root/include" -o "$program" "$@" "$archive" \
        >"$program.txt" 2>&1 ||
        failed "${program##*/} does not build; see $program.txt"
}

# build_wrong PROGRAM FUNCTIONS SOURCE..: the same, with the test's wrong.c around those functions of the library.
build_wrong() {
    wrong=$1
    functions=$2
    shift 2
    for function in $functions; do
        set -- "$@" "-Wl,--wrap=calmuredda_$function"
    done
    build_c "$wrong" "$here/wrong.c" "$@"
}

# first_said PROGRAM INPUT NUMBER: the first line that it prints if the library makes that mistake.
first_said() {
    (
        export MISTAKE="$3"
        run_x86 "$1" <"$2" | head -n 1
    )
}

# check_mistakes PROGRAM INPUT LAST WORD: the program complains with a line that begins with the word, whichever mistake
# of wrong.c the library makes. A program that overlooks a mistake would agree with every library. The library itself
# has passed by now.
check_mistakes() {
    number=1
    while [ "$number" -le "$3" ]; do
        first=$(first_said "$1" "$2" "$number")
        case $first in
            "$4 "*": "*) ;;
            *) failed "the program does not notice mistake $number of wrong.c: $first" ;;
        esac
        number=$((number + 1))
    done
    # None is left out.
    first=$(first_said "$1" "$2" "$number")
    [ "$first" = "MISTAKE is a number from 1 to $3" ] || failed "$3 is not the last mistake of wrong.c: $first"
}
