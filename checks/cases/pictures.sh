#!/bin/sh
# Each picture of docs/pictures is exactly what bench/peer/picture.py draws of the figures beside it, is well-formed, and has less
# than 40 KB.
. "$(dirname "$0")/../preamble.sh"
needs python3
[ -d docs/pictures ] || skip "there are no pictures"
for picture in docs/pictures/*.svg; do
    python3 bench/peer/picture.py "${picture%.svg}.json" "$room/drawn.svg" || complain "$picture isn't drawn"
    cmp -s "$picture" "$room/drawn.svg" || complain "$picture isn't what is drawn of the figures beside it"
    python3 -c 'import sys, xml.dom.minidom; xml.dom.minidom.parse(sys.argv[1])' "$picture" || complain "$picture isn't well-formed"
    [ "$(wc -c <"$picture")" -lt 40960 ] || complain "$picture has more than 40 KB"
done
finish
