#!/bin/sh
# Tests the files of this folder, each as far as what it needs is installed; says what isn't. The status is 1 if a test fails, else 0.
#
# - What each editor highlights in sample.ti is compared with sample.classes, which has a letter for each byte of it; vim/test.vim has a
#   table of the letters. JSON files are read. The sessions are compared with the methods and errors of the server, and with its stored run.
# - If titan_lsp is built of the sources as they are: its sessions, its other tests, and the clients with it.
cd "$(dirname "$0")" || exit 1
status=0
log=$(mktemp)

# test NAME COMMAND: what the command writes is shown if it fails. An editor that stops at an error waits for keys, so there is a time limit.
test_with() {
  name=$1
  shift
  if ! command -v "$1" > /dev/null; then
    echo "editors: $name: $1 isn't installed"
  elif timeout 300 "$@" < /dev/null > "$log" 2>&1; then
    echo "editors: $name: passed"
  else
    cat "$log"
    echo "editors: $name: failed"
    status=1
  fi
}

test_with "highlighting in Vim" vim -N -u NONE -i NONE -n -es -S vim/test.vim sample.ti sample.classes
test_with "highlighting in Neovim" nvim -u NONE -i NONE -n -es -S vim/test.vim sample.ti sample.classes
test_with "highlighting in Emacs" emacs -Q --batch -l emacs/test.el sample.ti sample.classes
for file in vscode/*.json vscode/syntaxes/*.json kate/*.json; do
  test_with "$file" python3 -m json.tool "$file"
done
test_with "kate/titan.xml" python3 -c "import sys, xml.dom.minidom; xml.dom.minidom.parse(sys.argv[1])" kate/titan.xml
test_with "list of sessions" python3 sessions.py --check

if TITAN_LSP=$(python3 ../tools/built.py titan_lsp); then
  export TITAN_LSP
  test_with "sessions" python3 sessions.py "$TITAN_LSP"
  test_with "server" python3 test_server.py "$TITAN_LSP"
  test_with "client for VS Code" node vscode/test.js "$TITAN_LSP"
  test_with "client for Neovim" nvim --headless -u NONE -c "luafile nvim/test_lsp.lua"
  test_with "client for Emacs" emacs --batch -L emacs -l emacs/test-lsp.el
else
  echo "editors: the server and its clients aren't tested"
fi
rm -f "$log"
exit $status
