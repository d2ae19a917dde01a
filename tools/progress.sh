# shellcheck shell=sh
# For tools/build and tools/test: `. tools/progress.sh` from the top of the repository. What rt prints becomes one line of
# progress on standard error: rewritten in place on a terminal, a line each elsewhere.
live=no
if [ -t 2 ] && [ "${TERM:-dumb}" != dumb ]; then live=yes; fi

tell() {
    if [ "$live" = yes ]; then printf '\r%s\033[K' "$1" >&2; else printf '%s\n' "$1" >&2; fi
}

# Takes the line of progress away.
hush() { [ "$live" = no ] || printf '\r\033[K' >&2; }

# A line that stays.
say() { hush; printf '%s\n' "$1" >&2; }

# Reads what rt ci prints. CRATES and EDITS are how many there are. A crate that is kept is counted and not told; what rt
# complains of stays, but for crates that only stand on one that is not proved.
progress() { # CRATES EDITS
    crates=0 edits=0
    while IFS= read -r line; do
        case $line in
        'rt: must-fail '*': refused, as it must be'*)
            edits=$((edits + 1)) name=${line#rt: must-fail }
            tell "edit $edits of $2: ${name%%: *}"
            ;;
        'rt: '*' is kept: '*) crates=$((crates + 1)) ;;
        'rt: '*' NOT PROVED: its library '*) ;;
        'rt: '*' NOT PROVED') say "${line#rt: }" ;;
        'rt: '*' proved')
            crates=$((crates + 1)) name=${line#rt: }
            tell "$crates of $1: ${name%% *}"
            ;;
        'rt: ok'* | 'rt: FAILED'* | 'rt: '*': trying its must-fail edits '* | 'rt: '*" ran"*) ;;
        'rt: '*) say "${line#rt: }" ;;
        esac
    done
    hush
}

# The crates of crates.txt that those named need, themselves among them, one to a line.
closure() {
    WANTED="$*" awk '
        { sub(/#.*/, ""); at = index($0, ":"); if (!at) next
          name = substr($0, 1, at - 1); sub(/ .*/, "", name); gsub(/[ \t]/, "", name); needs[name] = substr($0, at + 1) }
        function visit(n,    list, i, count) {
            if (!(n in needs) || n in seen) return
            seen[n] = 1
            count = split(needs[n], list, " ")
            for (i = 1; i <= count; i++) visit(list[i])
            print n
        }
        END { count = split(ENVIRON["WANTED"], want, " "); for (i = 1; i <= count; i++) visit(want[i]) }' crates.txt
}

# The same crates, each behind its level: 0 for one that needs no other, else one more than the highest that it needs.
levels() {
    WANTED="$*" awk '
        { sub(/#.*/, ""); at = index($0, ":"); if (!at) next
          name = substr($0, 1, at - 1); sub(/ .*/, "", name); gsub(/[ \t]/, "", name); needs[name] = substr($0, at + 1) }
        function level(n,    list, i, count, most, of) {
            if (n in seen) return seen[n]
            most = 0
            count = split(needs[n], list, " ")
            for (i = 1; i <= count; i++) if (list[i] in needs) { of = level(list[i]) + 1; if (of > most) most = of }
            print most, n
            return seen[n] = most
        }
        END { count = split(ENVIRON["WANTED"], want, " "); for (i = 1; i <= count; i++) level(want[i]) }' crates.txt
}

# A new folder for what a script writes for a while.
scratch() { mktemp -d "${TMPDIR:-/tmp}/muruapy.XXXXXX"; }

# The first of these programs that is not there, if there is one.
missing() {
    for program in "$@"; do
        command -v "$program" >/dev/null 2>&1 || { printf '%s\n' "$program"; return; }
    done
}
