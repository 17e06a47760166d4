#!/usr/bin/env bash
# The program `walk`, proved and linked, on vectors/walk, vectors/recorded and host/examples, and on lines at and over the bounds of their length.
set -eu
cd "$(dirname "$0")/.."
folder=$(mktemp -d)
trap 'rm -rf "$folder"' EXIT
tests/program walk
walk=target/bin/walk good=0 bad=0
compare() { # NAME INPUT EXPECTED
    if "$walk" <"$2" 2>/dev/null | cmp -s - "$3"; then good=$((good + 1)); else bad=$((bad + 1)); echo "differs: $1"; fi
}
for i in vectors/walk/*.in vectors/recorded/*.in host/examples/*.in; do compare "$i" "$i" "${i%.in}.out"; done

# NAME EXPECTED, with the input in $folder/in: what is printed after the question
settings='path=\\files\s1\nlimit=4\nsize=8192\nnow=100\nboot=dc1\n'
question='ask=root\nto=files\nname=\\files\\s1\nsize=8192\n'
after() {
    printf "$question$2" >"$folder/out"
    compare "$1" "$folder/in" "$folder/out"
}
digits() { head -c "$1" /dev/zero | tr '\0' 0; }
answer() { printf '%b' "${settings//\\\\/\\\\\\\\}status=00000000\nreply="; }
ended='end=25\nstatus=00000000\npath=\\files\\s1\nmoves=1\n'
# a reply of any length is read to its end: an even number of digits is malformed for its length, an odd one not of the form
for n in 131064 131066 131068 400000; do
    { answer; digits "$n"; printf '\n'; } >"$folder/in"
    after "a reply of $n digits" "$ended"
    { answer; digits "$((n + 1))"; printf '\n'; } >"$folder/in"
    after "a reply of $((n + 1)) digits" 'refused=0\n'
    { answer; digits "$n"; printf 'g0\n'; } >"$folder/in"
    after "a reply with another byte after $n digits" 'refused=0\n'
done
# any other line over 131,072 bytes is not of the form; one of that length is
for n in 131067 131068; do
    { printf 'path='; head -c "$n" /dev/zero | tr '\0' a; printf '\nlimit=4\nsize=8192\nnow=100\nboot=dc1\n'; } >"$folder/in"
    if [ "$n" -eq 131067 ]; then printf 'refused=1\n' >"$folder/out"; else printf 'refused=0\n' >"$folder/out"; fi
    compare "a path of $n bytes" "$folder/in" "$folder/out"
done
# a refusal is the last line: an I/O answer where a referral's is waited for stops the program before the line that ended it is read
for n in 1 131073; do
    { printf '%b' "${settings//\\\\/\\\\\\\\}status=00000000\n"; digits "$n"; printf '\n'; } >"$folder/in"
    after "a refused answer before a line of $n bytes" 'refused=5\n'
done
# where pieces of the input end makes no difference, nor does the end of the last line
{ answer; digits 400000; } >"$folder/in"
after "a last line of many pieces without its end" "$ended"
mkfifo "$folder/slow"
while IFS= read -r line; do printf '%s' "${line%?}"; sleep 0.05; printf '%s\n' "${line: -1}"; done <crates/walk/stdin >"$folder/slow" &
compare "lines in two pieces" "$folder/slow" crates/walk/stdout
# a question and an end are printed before more of the input comes
coproc driven { "$walk"; }
asked() { # NAME EXPECTED: so many lines, within five seconds each
    local line got=
    while [ "${#got}" -lt "${#2}" ] && IFS= read -r -t 5 line <&"${driven[0]}"; do got+=$line$'\n'; done
    if [ "$got" = "$2" ]; then good=$((good + 1)); else bad=$((bad + 1)); echo "differs: $1"; fi
}
printf '%b' "${settings//\\\\/\\\\\\\\}" >&"${driven[1]}"
asked "a question before its answer comes" "$(printf "$question")"$'\n'
printf 'status=C0000001\nreply=\n' >&"${driven[1]}"
asked "an end before the input ends" $'end=21\nstatus=00000000\npath=\\files\\s1\nmoves=1\n'
kill "$driven_PID"
# nothing, and bytes of every value
: >"$folder/in"
printf 'refused=0\n' >"$folder/out"
compare "no input" "$folder/in" "$folder/out"
for n in 1 100 5000 300000; do
    head -c "$n" /dev/urandom >"$folder/in"
    compare "$n random bytes" "$folder/in" "$folder/out"
done
echo "walk: $good passed, $bad failed"
[ "$bad" -eq 0 ]
