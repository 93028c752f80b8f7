#!/bin/sh
# Draws each example and each graph of the tutorial, and the code of each, with Graphviz: examples/draw.sh ETS FOLDER,
# where ETS is the program. Writes FOLDER/NAME.svg and FOLDER/NAME.code.svg. Stops at the first that `ets` refuses or
# of which `dot` says anything, as a warning.
set -eu
ets=${1:?words: ETS FOLDER}
folder=${2:?words: ETS FOLDER}
here=$(dirname "$0")
for program in "$ets" dot; do
    if ! command -v "$program" > /dev/null; then
        echo "draw.sh: no program $program (dot is Graphviz's)" >&2
        exit 1
    fi
done
mkdir -p "$folder"
draw() {
    dot -Tsvg "$folder/$1.dot" > "$folder/$1.svg" 2> "$folder/said"
    if [ -s "$folder/said" ]; then
        cat "$folder/said" >&2
        exit 1
    fi
    rm "$folder/said"
}
count=0
for file in "$here"/*.ets "$here"/../../test_tutorial/data/*.ets; do
    name=$(basename "$file" .ets)
    sed '/^main /q' "$file" > "$folder/$name.graph"
    "$ets" dot < "$folder/$name.graph" > "$folder/$name.dot"
    "$ets" compile < "$folder/$name.graph" > "$folder/$name.object"
    "$ets" dot --code < "$folder/$name.object" > "$folder/$name.code.dot"
    draw "$name"
    draw "$name.code"
    rm "$folder/$name.graph" "$folder/$name.object"
    count=$((count + 1))
done
echo "$count graphs and their code are drawn"
