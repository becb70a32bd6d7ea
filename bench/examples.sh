#!/bin/sh
# Runs the examples of README.md and docs/AT_SCALE.md as they stand there, each in a folder of its own with the shipped
# sample in it, and compares what comes out.
#
#     make build && make examples
#     bench/examples.sh [PROGRAM]
#
# An example is a block between ```sh and ```. For the k-th of a page there is a function check_PAGE_k here.
set -u
here=$(cd "$(dirname "$0")" && pwd)
top=$(dirname "$here")
program=${1:-$top/crates/outlook_cli/out/outlook_cli}
sample=$top/crates/outlook_cli/stdin
work=$(mktemp -d)
trap 'rm -rf "$work"' EXIT
mkdir "$work/bin"
cp "$program" "$work/bin/outlook_cli" || exit 1
PATH=$work/bin:$PATH
export PATH

# The k-th example of a page.
example() {
    awk -v wanted="$2" '/^```sh$/ { inside = 1; count++; next } /^```$/ { inside = 0 } inside && count == wanted' "$top/$1"
}

# How many examples a page has.
examples() {
    grep -c '^```sh$' "$top/$1"
}

# What an example finds: two good streams, one with a strange name, a damaged one, a mail, a .msg file.
prepare() {
    mkdir messages
    cp "$sample" messages/plain
    cp "$sample" "messages/with a space and a
line end"
    head -c 61 "$sample" > messages/damaged
    printf '\036\000' >> messages/damaged
    cp "$sample" winmail.dat
    outlook_cli wrap < "$sample" > mail.eml
    outlook_cli to-msg < "$sample" > old.msg
}

# Whether a file holds the sample's message.
same() {
    outlook_cli to-tnef < "$1" | cmp - "$sample"
}

has() {
    [ "$(cat "$1")" = "$2" ]
}

refusal='refused 63 BadSum at 61'

check_README_1() {
    same messages/plain.msg && same "messages/with a space and a
line end.msg" && has messages/damaged.why "$refusal" && [ "$(ls messages | grep -c '\.why$')" = 1 ] && [ ! -e messages/damaged.msg ]
}

check_README_2() {
    same done/messages/plain.msg && same "done/messages/with a space and a
line end.msg" && has done/messages/damaged.why "$refusal" && [ "$(find done -name '*.why' | wc -l)" = 1 ] \
        && [ ! -e done/messages/damaged.msg ]
}

check_README_3() { cmp message.msg old.msg; }

check_README_4() { cmp part.eml mail.eml; }

check_README_5() {
    has ../output "message
  0017 Integer32 2
carrier tnef
messages 1
recipients 0
attachments 0
properties 1
names 0
depth 0"
}

check_README_6() {
    outlook_cli show < new.msg > shown
    has shown 'message
  0017 Integer32 2
  0037 String "Report"
  recipient 0
    3001 String "A. Reader"'
}

check_README_7() { has subject.txt Report; }

check_README_8() {
    outlook_cli show < changed.msg > shown
    has shown 'message
  0017 Integer32 1'
}

# The table has a line for the damaged file, so many good ones have their results, and nothing half done is left.
tabled() {
    grep -q "^1	$refusal	messages/damaged$" table.tsv && [ "$(grep -c '^0		messages/' table.tsv)" = "$1" ] \
        && same done/messages/plain.msg && [ "$(find done -name '*.msg' -printf x)" = "$2" ] \
        && [ -z "$(find done -name '*.part')" ]
}

check_AT_SCALE_1() { tabled 1 x; }

# What the blocks behind the first one need of it.
scaled() {
    example docs/AT_SCALE.md 1 > ../first.sh
    sh ../first.sh
    rm -r done table.tsv
}

before_AT_SCALE_2() { scaled; }
check_AT_SCALE_2() { tabled 2 xx; }

before_AT_SCALE_3() { scaled; }
check_AT_SCALE_3() { tabled 2 xx && [ "$(wc -l < calls.tsv)" = 2 ]; }

# A table in which one file was refused memory.
before_AT_SCALE_4() {
    scaled
    sh translate.sh messages/damaged > table.tsv
    printf '6\tno memory\tmessages/plain\n' >> table.tsv
}

check_AT_SCALE_4() {
    has codes "      1 1
      1 6" && has reasons "      1 refused 63 BadSum
      1 no memory" && tabled 1 x
}

before_AT_SCALE_5() {
    scaled
    sh translate.sh messages/* > table.tsv
}

check_AT_SCALE_5() { [ "$(tr -cd '\000' < doubles | wc -c)" = 2 ]; }

before_AT_SCALE_6() { scaled; }
check_AT_SCALE_6() { tabled 2 xx; }

# The function of the Spark job, on pairs of a name and bytes.
job() {
    awk '/^```python$/ { count++; inside = 1; next } /^```$/ { inside = 0 } inside && count == 1' "$top/docs/AT_SCALE.md"
    cat << 'END'


def pair(name):
    with open("messages/" + name, "rb") as file:
        return name, bytearray(file.read())


rows = list(translated(map(pair, ["plain", "damaged"])))
assert [row[:3] for row in rows] == [("plain", 0, ""), ("damaged", 1, "refused 63 BadSum at 61")], rows
assert rows[0][3] == open("old.msg", "rb").read() and not rows[1][3]
END
}

# Whether the commands that an example calls are here.
ready() {
    for needed in less parallel; do
        if grep -q "\(^\|| \)$needed\( \|$\)" "$1" && ! command -v "$needed" > /dev/null; then
            echo "$2: not run, $needed is not here"
            return 1
        fi
    done
}

# Runs an example and looks at what came out.
try() {
    page=$1; number=$2; name=$(basename "$page" .md)
    folder=$work/$name-$number
    mkdir "$folder" && cd "$folder" && prepare
    if type "before_${name}_$number" > /dev/null 2>&1; then "before_${name}_$number"; fi
    example "$page" "$number" > ../example.sh
    ready ../example.sh "$page $number" || return 0
    if sh ../example.sh > ../output 2> ../errors < /dev/null && "check_${name}_$number"; then
        echo "$page $number: as it should be"
    else
        echo "$page $number: WRONG"
        cat ../example.sh ../output ../errors
        return 1
    fi
}

before_README_7() {
    outlook_cli edit set . 0037 String Report < old.msg > new.msg
}

failed=0
for page in README.md docs/AT_SCALE.md; do
    count=$(examples "$page")
    number=1
    while [ "$number" -le "$count" ]; do
        try "$page" "$number" || failed=1
        number=$((number + 1))
    done
done
cd "$work/AT_SCALE-1" && job > ../job.py
if python3 ../job.py; then echo "docs/AT_SCALE.md, the job's function: as it should be"; else failed=1; fi
exit "$failed"
