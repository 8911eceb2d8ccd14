#!/usr/bin/env bash
# Makes the pictures in docs/pictures, from the nets in examples/ and by tools/skylight.py and tools/diagrams.py, or compares them with --check.
# REFINE is the refiner command, as seen from the repository's root; without it, ./refine.
set -eu
cd "$(dirname "$0")/.."
if [ $# -gt 1 ] || { [ $# -eq 1 ] && [ "$1" != --check ]; }; then
    echo "usage: tools/pictures.sh [--check]" >&2
    exit 2
fi
made=$(mktemp -d)
trap 'rm -r "$made"' EXIT

# picture NAME VIEW [OPTION] NET ..
picture() {
    local name=$1 view=$2
    shift 2
    python3 tools/draw.py --view="$view" --refine "${REFINE:-./refine}" "$@" >"$made/$name.svg"
}

picture panel 1,-3,1 examples/panel.txt
picture seam -6,-5,-1 examples/topside.txt examples/bottom.txt
picture extraordinary 4,3,2 examples/dome.txt
picture corners 0,-2,5 --beside examples/hatch.txt examples/unmarked.txt
picture letters 1,-3,1 --letters examples/panel.txt
picture apart -6,-5,-1 --apart=0,0,-40000 examples/topside.txt examples/bottom.txt
python3 tools/draw.py --view=2,-3,2 --face 4 examples/fin.txt >"$made/fin.svg"
python3 tools/draw.py --view=2,-3,3 --face 3 examples/turned.txt >"$made/turned.svg"
python3 tools/skylight.py --refine "${REFINE:-./refine}" >"$made/skylight.svg"
for name in $(python3 tools/diagrams.py --list); do
    python3 tools/diagrams.py "$name" >"$made/$name.svg"
done
if [ $# -eq 1 ]; then
    diff -rq "$made" docs/pictures
else
    mkdir -p docs/pictures
    cp "$made"/*.svg docs/pictures/
fi
