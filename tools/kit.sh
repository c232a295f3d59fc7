# Read by the project's scripts with '.': where the Rattle toolchain lies, what it is to build from, and proving with progress.
#
#   say WORDS...            one line on standard error, after the script's name
#   find_kit                sets `kit` (the toolchain's folder) and `machine` (this processor)
#   crates ROOT             the names in ROOT/crates.txt, one a line
#   sources ROOT            one word that changes where the toolchain or the text of a crate does; after find_kit
#   prove ROOT NAME WORD    runs 'rt WORD' in the folder of the crate NAME and says on standard error what was proved, as it comes; if rt proves
#                           or builds nothing, all that it said follows, and the status is not 0
#   take_lines ROOT STAMP   from what rt says, on standard input, the last line on each crate, into ROOT/target/checks: STAMP, and the line
#   keep ROOT FILE TO STAMP copies ROOT/FILE, made of the sources STAMP, to ROOT/TO
#   is_kept ROOT TO STAMP   whether that was done

# The shell that reads this file uses what it sets.
# shellcheck shell=sh disable=SC2034

say() { printf '%s: %s\n' "$(basename "$0")" "$*" >&2; }

find_kit() {
    rt=$(command -v rt) || {
        say "the Rattle toolchain is missing: rt is not on the PATH"
        return 1
    }
    kit=$(dirname "$(dirname "$(readlink -f "$rt")")")
    machine=$(uname -m)
    [ "$machine" = x86_64 ] || {
        say "the Rattle toolchain is for x86-64, and this processor is $machine"
        return 1
    }
}

crates() { sed -n 's/^\([a-z0-9_]*\)\( [^:]*\)*:.*/\1/p' "$1/crates.txt"; }

sources() {
    {
        cat "$kit/KIT-ID" 2>/dev/null || rt version # the same line, and the file takes no time
        cd "$1" && find crates crates.txt -name out -prune -o -type f \( -name '*.rt' -o -name '*.antt' -o -name crates.txt \) -exec sha256sum {} + | sort
    } | sha256sum | cut -d' ' -f1
}

# A crate's check ends in its line; before it come how many of its modules were checked and, in the gate, the crate's heading.
take_lines() (
    mkdir -p "$1/target/checks"
    name=''
    while IFS= read -r line; do
        case $line in
        '== '*': its tests') name='' ;;
        '== '*) name=${line#== } ;;
        'crate '*': modules '*)
            name=${line#crate }
            name=${name%%:*}
            ;;
        'logic=proved '*)
            case $name in '' | *[!a-z0-9_]*) ;; *) printf '%s\n' "$2" "$line" >"$1/target/checks/$name" ;; esac
            name=''
            ;;
        esac
    done
)

prove() (
    log=$(mktemp) || exit
    trap 'rm -f "$log" "$log.proved"' EXIT
    stamp=$(sources "$1")
    {
        cd "$1/crates/$2" && rt "$3" </dev/null 2>&1 && : >"$log.proved"
    } | while IFS= read -r line; do
        printf '%s\n' "$line" >>"$log"
        case $line in
        'crate '*': modules '*' checked=0') name='' ;;
        'crate '*': modules '*)
            name=${line#crate }
            name=${name%%:*}
            ;;
        'logic=proved '*) [ -z "${name:-}" ] || say "$name proved" ;;
        # rt run has built the program, and its own status is then the program's
        "rt: running out/$2;"*) : >"$log.proved" ;;
        esac
    done
    take_lines "$1" "$stamp" <"$log"
    [ -f "$log.proved" ] || {
        cat "$log" >&2
        exit 1
    }
)

keep() {
    mkdir -p "$1/$(dirname "$3")"
    rm -f "$1/$3" "$1/$3.stamp"
    cp "$1/$2" "$1/$3" && printf '%s\n' "$4" >"$1/$3.stamp"
}

is_kept() { [ -f "$1/$2" ] && [ "$(cat "$1/$2.stamp" 2>/dev/null)" = "$3" ]; }
