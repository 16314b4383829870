#!/usr/bin/env bash
# Who may read what: the program of permissions.py as a script, by pipes.
#
# usage: examples/permissions.sh STORE make [USERS]      fills a new store; 10,000 users where no number is given
#        examples/permissions.sh STORE who PATH          the logins of those who may read this document
#        examples/permissions.sh STORE what LOGIN        the paths of the documents that this user may read
#        examples/permissions.sh STORE may LOGIN PATH    yes or no
#
# STORE is a folder. Needs awk, sed and sort, and Python for the import.
set -euo pipefail
export LC_ALL=C
root=$(dirname -- "$(readlink -f -- "$0")")/..

fail() {
    echo "examples/permissions.sh: $*" >&2
    exit 1
}

# Lines to a run of the program. They are of session 1, which has a snapshot: so whatever a text has in it, the program
# refuses to change anything. What it refuses ends the script, and results come without mark and arrow.
ask() {
    { echo '@1 snapshot'; sed 's/^/@1 /'; } | (cd "$store" && "$root/nipakeel" run) > "$scratch/replies" ||
        fail "the program has ended with status $?"
    if grep -E '^(@1 )?(error |fault disk|damaged )' "$scratch/replies" >&2; then fail "a line was refused"; fi
    sed -n 's/^@1 ==>//p' "$scratch/replies"
}

# A text as a line has it: every word of a user goes through this. A newline can't stand in a line.
text() {
    [ "$(printf '%s' "$1" | wc -l)" -eq 0 ] || fail "a text of several lines"
    printf "'%s'" "$(printf '%s' "$1" | sed "s/[\\\\']/\\\\&/g")"
}

# The identifier of the one node of a label whose key has the value.
found() {
    value=$(text "$3")
    id=$(echo "find $1 $2 $value" | ask | sed 's/^v\[\(.*\)\]$/\1/')
    case $id in '' | *[!0-9]*) fail "no $1 is $3" ;; esac
    echo "$id"
}

# The values of a key of all nodes of a label that edges lead to, or from. A line has 1,000 identifiers.
reached() {
    nobody=$(found mark name nobody)
    echo "levels $1 $nobody $2" | ask | sed 's/^v\[\(.*\)\] .*/\1/' > "$scratch/ids"
    awk -v label="$3" -v key="$4" '
        function ends() { if (ids) printf "g.V(%s).hasLabel(\047%s\047).values(\047%s\047)\n", ids, label, key; ids = "" }
        { ids = ids (ids ? "," : "") $1 } NR % 1000 == 0 { ends() } END { ends() }' "$scratch/ids" |
        ask | sed "s/^'\(.*\)'\$/\1/" | sort
}

# The import makes transactions as full as they may be, and goes on where it was stopped.
make() {
    awk -v users="$1" -v folder="$scratch" 'BEGIN {
        groups = int(users / 20) > 0 ? int(users / 20) : 1; documents = int(users / 2) > 0 ? int(users / 2) : 1
        nodes = folder "/nodes.csv"; edges = folder "/edges.csv"
        print "id,label,login,name,path" > nodes
        print "nobody,mark,,nobody," > nodes
        for (it = 0; it < users; it++) print "u" it ",user,user" it ",," > nodes
        for (it = 0; it < groups; it++) print "g" it ",group,,group" it "," > nodes
        for (it = 0; it < documents; it++) print "d" it ",document,,,/docs/" it > nodes
        print "from,type,to" > edges
        for (it = 0; it < users; it++) print "u" it ",member,g" it % groups > edges
        for (it = 0; it < users; it++) print "u" it ",member,g" (7 * it + 3) % groups > edges
        for (it = 1; it < groups; it++) print "g" it ",member,g" int((it - 1) / 3) > edges
        for (it = 0; it < documents; it++) print "g" (11 * it + 5) % groups ",may_read,d" it > edges
        for (it = 0; it < documents; it++) print "u" 3 * it % users ",may_read,d" it > edges
    }'
    "$root/tools/import" --quiet --folder "$store" --nodes "$scratch/nodes.csv" --edges "$scratch/edges.csv" \
        --journal "$scratch/journal" --index user:login --index document:path --index mark:name
    echo stats | (cd "$store" && "$root/nipakeel" run)
}

[ $# -ge 2 ] || fail "STORE make [USERS] | who PATH | what LOGIN | may LOGIN PATH"
store=$1 what=$2
shift 2
scratch=$(mktemp -d)
trap 'rm -rf "$scratch"' EXIT
case $what:$# in
    make:0) make 10000 ;;
    make:1) make "$1" ;;
    who:1)
        node=$(found document path "$1")
        reached "$node" in user login ;;
    what:1)
        node=$(found user login "$1")
        reached "$node" out document path ;;
    may:2)
        user=$(found user login "$1")
        document=$(found document path "$2")
        walk=$(echo "path $user $document out" | ask)
        if [ -n "$walk" ]; then echo yes; else echo no; fi ;;
    *) fail "STORE make [USERS] | who PATH | what LOGIN | may LOGIN PATH" ;;
esac
