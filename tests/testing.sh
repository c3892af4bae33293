# What the test programs in shell share, as testing.py does for those in Python: the cases, what was left out, and --help.
#
# A test program sources this file from the top of the repository, with its description in `about`. `holds` counts a case that executes what is
# tested, and `checks` one that does not. `skip` names a part that is left out, and `finish` prints the counts and ends the program.
passed=0
failed=0
executed=0
skipped=
work=$(mktemp -d) || exit 1
# the program, from the top of the repository
again=$(cd "$OLDPWD" && realpath "$0")
again=${again#"$PWD"/}
trap 'rm -rf "$work"' EXIT
case ${1:-} in
-h | --help)
    printf 'usage: %s [--help]\n\n%s\n\n%s\n' "$again" "$about" 'environment: The proved library and programs are tested if they are there, and otherwise those of `make try-library` and
`make try`. UNPROVED=yes tests only what was built without proofs, and UNPROVED=no only what was proved. L4 and L4_STEPS name other programs'
    exit 0
    ;;
'') ;;
*)
    printf '%s takes no argument: %s\n' "$again" "$1" >&2
    exit 2
    ;;
esac

# form_of PROVED TRIED: the proved file if it is there, and otherwise the one that was built without proofs, unless UNPROVED decides
form_of() {
    case ${UNPROVED:-} in
    yes) printf '%s\n' "$2" ;;
    no) printf '%s\n' "$1" ;;
    *) if [ ! -f "$1" ] && [ -f "$2" ]; then printf '%s\n' "$2"; else printf '%s\n' "$1"; fi ;;
    esac
}

L4=$(realpath -m "${L4:-$(form_of crates/l4/out/l4 out/unproved/l4)}")
L4_STEPS=$(realpath -m "${L4_STEPS:-$(form_of crates/l4_steps/out/l4_steps out/unproved/l4_steps)}")
library=$(form_of crates/l4_c/out/libl4_c.a out/unproved/lib/libl4.a)
# from here on, for the Makefile, whether the library is one without proofs
case $library in out/*) UNPROVED=yes ;; *) UNPROVED= ;; esac
export L4 L4_STEPS UNPROVED

# holds NAME COMMAND..: counts a case that executes what is tested, which passes if the command ends with 0
holds() {
    executed=$((executed + 1))
    checks "$@"
}

# checks NAME COMMAND..: counts a case that executes nothing of what is tested, which passes if the command ends with 0
checks() {
    local name=$1 status
    shift
    "$@" > "$work/out" 2>&1
    status=$?
    if [ $status = 0 ]; then
        passed=$((passed + 1))
        return
    fi
    failed=$((failed + 1))
    printf 'FAILED %s\n    command: %s\n    expected: status 0\n    actual: status %s\n' "$name" "$*" $status
    tail -20 "$work/out" | sed 's/^/        /'
    printf '    repeat: %s\n' "$again"
}

# writes TEXT COMMAND..: the command writes exactly this to standard output, and ends with 0
writes() {
    local text=$1 got status
    shift
    got=$("$@")
    status=$?
    [ $status = 0 ] && [ "$got" = "$text" ] || { printf 'expected: status 0\n%s\nactual: status %s\n%s\n' "$text" $status "$got"; return 1; }
}

# refuses TEXT COMMAND..: the command ends with another status than 0, and prints this
refuses() {
    local text=$1
    shift
    if "$@" > "$work/said" 2>&1; then
        echo 'expected: a status other than 0'
        return 1
    fi
    cat "$work/said"
    grep -qF -- "$text" "$work/said" || { printf "expected: '%s'\n" "$text"; return 1; }
}

# there TOOL: whether the tool is there, and runs
there() {
    "$1" --version > /dev/null 2>&1
}

# skip NAME REASON: names a part that is left out
skip() {
    skipped="${skipped}skipped: $1 ($2)
"
}

# needs NAME TOOL..: ends the program here, and says why, if a tool or the C library is not there
needs() {
    local name=$1 tool part
    shift
    for tool; do there "$tool" || { skip "$name" "no $tool"; finish; }; done
    [ -f "$library" ] || { skip "$name" 'the C library is not built: `make` builds it, and `make try-library` builds it without proofs'; finish; }
    [ -z "$UNPROVED" ] || return
    for part in l4_c_locks l4_c_orders l4_c_checkpoints; do
        [ -f crates/$part/out/lib$part.a ] || { skip "$name" "crates/$part/out/lib$part.a is not built: \`make\` builds it"; finish; }
    done
}

# install FOLDER: installs the C library, as it was built last
install() {
    make -s BUILT=yes install-library PREFIX="$1"
}

# finish: prints what was left out and the counts, and ends the program
finish() {
    printf '%s%s cases executed a program\n%s passed, %s failed\n' "$skipped" "$executed" "$passed" "$failed"
    [ "$failed" = 0 ]
    exit
}
