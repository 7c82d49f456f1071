# Read by other scripts: `build_program FOLDER ROOM CRATE..` builds a benchmark's main.rt.txt, with its proofs/ (each file's name
# ends in .txt) if it has some, over crates of this repository, in the folder ROOM, and prints where the program is. RT names the
# toolchain's command.
build_program() {
    local here room top name
    here="$(cd "$1" && pwd)"
    room="$2"
    shift 2
    top="$(cd "$(dirname "${BASH_SOURCE[0]}")/../.." && pwd)"
    name="$(basename "$here")_bench"
    # the lines of crates.txt of these crates, and of those below them
    awk -v wanted="$*" '
        { sub(/#.*/, ""); if (split($0, part, ":") == 2) { name = part[1]; sub(/ .*/, "", name); below[name] = part[2]; line[name] = $0 } }
        END { count = split(wanted, todo, " ")
              for (i = 1; i <= count; i++) if (todo[i] in line && !(todo[i] in seen)) {
                  seen[todo[i]] = 1; print line[todo[i]]
                  more = split(below[todo[i]], dep, " "); for (k = 1; k <= more; k++) todo[++count] = dep[k] } }' "$top/crates.txt" > "$room/crates.txt"
    mkdir -p "$room/crates/$name/src"
    cut -d: -f1 "$room/crates.txt" | cut -d' ' -f1 | while read -r crate; do
        cp -r "$top/crates/$crate" "$room/crates/"
    done
    echo "$name: $*" >> "$room/crates.txt"
    cp "$here/main.rt.txt" "$room/crates/$name/src/main.rt"
    if [ -d "$here/proofs" ]; then
        cp -r "$here/proofs" "$room/crates/$name/"
        # (the gate refuses a proof outside a crate, so each ends in .txt here)
        find "$room/crates/$name/proofs" -name '*.txt' | while read -r file; do mv "$file" "${file%.txt}"; done
    fi
    (cd "$room/crates/$name" && "${RT:-rt}" run > "$room/first" 2> "$room/log") || { cat "$room/log" >&2; return 1; }
    echo "$room/crates/$name/out/$name"
}
