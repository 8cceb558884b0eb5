#!/usr/bin/env bash
# What refused each must-fail edit, from what `rt ci` or `rt must-fail` printed: tools/why.sh LOG
#   FACT   a fact that the contract needs no longer holds: what a proof shows differs from what the edited code needs, a search for the needed fact finds none, or a counterexample is found
#   FACT?  a step of the proof finds nothing to rewrite or no proof, or a search gave up before it had tried all: most likely that fact, but only a control
#          (the edit with a matching change of the definition, proved) would tell
#   UNFIT  a proof file, a name or a loop's invariant no longer fits the edited text, or rt says that only such a file names what the edit took away: the refusal shows nothing
#   LIMIT  the prover met a limit of its own and gave no verdict: the refusal shows nothing
#   BAD    the edit can't be applied, compiled or read; LIVES: it is still proved; UNTRIED: nothing is known of it
# rt prints the first of the prover's lines for an edit, which is the one that is judged.
# Exit status 1 where an edit is not refused for a fact, or for no reason that this script knows, and where a crate that is proved has an edit of which the log has no line.
set -u
[ $# -eq 1 ] && [ -f "$1" ] || { sed -n '2,11s/^# \{0,1\}//p' "$0"; exit 2; }
log=$(realpath "$1")
cd "$(dirname "$0")/.." || exit 2
unfit='has no field|can be named|has no `|no .mod. line|exports no|does not cover|no clause covers|not in scope|is no name|[Pp]arse error|error\[|has-holes|unsolved|goal \?'
unfit="$unfit"'|was not determined|too (many|few) arguments|is not a function|is applied to|could not tell|was not admitted|was not checked'
unfit="$unfit"'|: error: .*(this pattern|is not a record|there is no |takes (no|only)|projects from|components? but its type|type has [0-9]+ components|tuple or record literal needs|cannot be read)'
unfit="$unfit"'|Invariants\.antt:[0-9:]+ error: '
shown='the two (types|sides|values) |give a proof of that|does not follow|expected type|`(search|grind|omega|simp|cc)`[^:]*did not prove|no proof of|counterexample|is not proved|not proved: |fails (for|at|where)|is false'
fact=': error: `[^`]*`: |^note: |: error: '
# The start of a line, with no character cut in two.
short() { cut -c1-160 | iconv -c -f UTF-8 -t UTF-8; }
status=0
tell() { printf '%-7s %s: %s\n' "$1" "$2" "$3"; }
while IFS= read -r line; do
    line=${line#rt: must-fail }
    edit=${line%%: *} said=${line#*: }
    edit=${edit%.edit}
    reason=${said#refused, as it must be}
    reason=${reason#: }
    case $said in
    "refused, as it must be (only because a proof file names"*) tell UNFIT "$edit" "${reason#*): }"; status=1 ;;
    "refused, as it must be (only by a limit"*) tell LIMIT "$edit" "${reason#*): }"; status=1 ;;
    "refused, as it must be"*)
        text=$(sed -E 's/^note: [^ ]*: //; s/^[^ ]*(proofs|specs)\///' <<<"$reason" | short)
        if [ -z "$reason" ]; then
            tell "?" "$edit" "no refusal that is known"; status=1
        elif grep -qE "$unfit" <<<"$reason"; then
            tell UNFIT "$edit" "$text"; status=1
        elif grep -qE "$shown" <<<"$reason" && ! grep -q 'gave up' <<<"$reason"; then
            tell FACT "$edit" "$text"
        elif grep -qE "$fact" <<<"$reason"; then
            tell FACT? "$edit" "$text"
        else
            tell "?" "$edit" "$text"; status=1
        fi ;;
    "BAD EDIT"*) tell BAD "$edit" "$said"; status=1 ;;
    "NOT REFUSED"*) tell LIVES "$edit" "$said"; status=1 ;;
    *) tell UNTRIED "$edit" "$said"; status=1 ;;
    esac
done < <(grep -aE '^rt: must-fail [a-z0-9_]+/[^ ]+\.edit: ' "$log")
# The edits of which nothing is printed: of a crate that isn't proved none is, and then the run fails by that.
while IFS= read -r file; do
    crate=${file#crates/} crate=${crate%%/*} name=${file##*/}
    grep -qaE "^rt: $crate (proved|is kept)" "$log" || continue
    grep -qaF "rt: must-fail $crate/$name: " "$log" || { tell UNTRIED "$crate/${name%.edit}" "the log has no line of it"; status=1; }
done < <(find crates -path '*/must-fail/*.edit' | sort)
exit $status
