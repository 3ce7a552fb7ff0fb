#!/bin/sh
# Makes docs/pictures/neovim.png: Neovim in a terminal, with a program that has an error, its diagnostic and its hover.
#
#     TITAN_LSP=PROGRAM editors/nvim/picture.sh
#
# Needs Xvfb, xterm, nvim, import of ImageMagick, and the font DejaVu Sans Mono.
set -e
EDITORS=$(cd "$(dirname "$0")/.." && pwd)
folder=$(mktemp -d)
READY=$folder/ready
export EDITORS READY TITAN_LSP
cat > "$folder/rounds.ti" <<'PROGRAM'
// Each round ends with a barrier.
class Main {
  public static single void main(String[] args) {
    int n = broadcast 3 from 0;
    for (int single i = 0; i < n; i++) {
      if (Ti.thisProc() == i % Ti.numProcs()) {
        println("round " + i);
      }
      Ti.barrier();
    }
  }
}
PROGRAM
cd "$folder"
Xvfb :62 -screen 0 1000x330x24 > /dev/null 2>&1 &
screen=$!
sleep 1
DISPLAY=:62 xterm -fa 'DejaVu Sans Mono' -fs 11 -b 6 +sb -geometry 106x13+0+0 -e nvim -u "$EDITORS/nvim/picture.lua" -i NONE -n rounds.ti &
terminal=$!
tries=0
while [ ! -e "$READY" ] && [ $tries -lt 60 ]; do
  sleep 0.5
  tries=$((tries + 1))
done
DISPLAY=:62 import -window root -trim +repage -strip +dither -colors 48 "$EDITORS/../docs/pictures/neovim.png"
kill "$terminal" "$screen"
rm -rf "$folder"
