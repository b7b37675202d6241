#!/bin/sh
# Takes a screenshot of each picture of examples/ with a headless Chromium (Debian's package `chromium`), for a person to look at:
#   bench/view.sh FOLDER [SVG..]     FOLDER gets NAME.png for each picture; without SVG all of examples/
# It fails if a picture is not a well-formed page, or if the browser shows none.
CDPATH=
folder=${1:?where do the screenshots go?}
shift
mkdir -p "$folder" || exit 70
folder=$(cd "$folder" && pwd)
browser=$(command -v chromium || command -v chromium-browser) || { echo "view: there is no chromium" >&2; exit 70; }
[ $# -gt 0 ] || set -- "$(dirname "$0")"/../examples/*/picture.svg
for picture; do
    python3 -c 'import sys, xml.dom.minidom as d; d.parse(sys.argv[1])' "$picture" || exit 1
    size=$(sed -n '1s/.* width="\([0-9]*\)" height="\([0-9]*\)".*/\1,\2/p' "$picture")
    name=$(basename "$(dirname "$picture")")
    [ "$(basename "$picture")" = picture.svg ] || name=$(basename "$picture" .svg)
    "$browser" --headless --no-sandbox --disable-gpu --hide-scrollbars --window-size="$size" \
        --screenshot="$folder/$name.png" "file://$(cd "$(dirname "$picture")" && pwd)/$(basename "$picture")" >/dev/null 2>&1
    [ -s "$folder/$name.png" ] || { echo "view: $picture is not shown" >&2; exit 1; }
    echo "$folder/$name.png"
done
