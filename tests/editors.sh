#!/usr/bin/env bash
# Runs the files of editors/ over what the program prints and over the examples: the problem matcher of VS Code and the errorformat of
# Vim find the first line of `sfcmon why`, with its file, line, column and fault, and no other line; the grammars give each word of the
# language in a chart or a script its scope; what snippets make is a chart. Then editors' own clients (editors/clients) talk to `sfcmon lsp`
# and `sfcmon dap`, and what each saw is compared; recorded sessions (editors/sessions) are played to them; and all messages of `dap` are
# held to VS Code's declarations. The last line is 'N passed, M failed'. What asks for a program that isn't there is left out, and that is
# said: node, vim, nvim, emacs with elpa-eglot, elpa-lsp-mode and elpa-dap-mode, tsc with node-vscode-debugprotocol.
set -u
here=$(cd "$(dirname "${BASH_SOURCE[0]}")" && pwd)
# shellcheck source=tests/common.sh
. "$here/common.sh"
examples=$top/examples
work=$(mktemp -d)
trap 'rm -rf "$work"' EXIT
cd "$work" || exit 1

# fault NAME LINE COLUMN FAULT WORD FILE..: what `why` prints of these files is kept as NAME.out, and what is to be found in it as NAME.want
fault() {
  local name=$1 file=${*: -1}
  printf '%s\n' "$file" "$2" "$3" "$4" "$5" >"$name.want"
  "$program" why "${@:6}" >"$name.out" 2>"$name.err"
}
sed 's/Lamp(N)/Lmap(N)/' "$examples/lamp.chart" >unknown.chart
fault unknown 4 5 '16 UnknownAction' 'Lmap; near: Lamp' unknown.chart
sed 's/Lamp(N);/Lamp(N)/' "$examples/lamp.chart" >'with blanks.chart'
fault blanks 5 3 '4 Syntax' END_STEP 'with blanks.chart'
head -c 300 "$examples/pump.chart" >cut.chart
fault cut 8 3 '4 Syntax' 'end of the text' cut.chart
sed 's/:= Stop;/:= Stop AND T#1s;/' "$examples/pump.chart" >type.chart
fault type 15 52 '10 WrongType' 'T#1s' "$work/type.chart"
{ seq -f '(* %.0f *)' 12345; sed 's/INITIAL_STEP/STEP/' "$examples/lamp.chart"; } >long.chart
fault long 12347 9 '14 NoInitial' Mix long.chart
for number in {1..16}; do echo "    TASK Another$number(PRIORITY := 1);"; done >tasks
sed '/TASK Main/r tasks' "$examples/lamp.chart" >tasks.chart
fault tasks 29 10 '22 Limit Tasks' Another16 tasks.chart
printf 'T#0s SCAN Main\nT#0s JUMP\n' >jump.script
fault script 2 6 'script line 2' JUMP "$examples/lamp.chart" jump.script
printf '; a:1:2: 3 b: c\nT#0s BREAK P STEP S WHEN (* a:1:2: 3 b: c *) 5 5\n' >colon.script
fault colon 2 48 'script line 2' 5 "$examples/lamp.chart" colon.script
printf 'T#0s SCAN Mian\n' >warned.script
fault warned 1 11 'warning 31 UnknownTask' 'Mian; near: Main' "$examples/lamp.chart" warned.script
"$program" why "$examples/lamp.chart" >none.out 2>none.err
: >none.want

if command -v vim >/dev/null; then
  for out in *.out; do
    vim -es -u NONE -i NONE -c "set rtp^=$top/editors/vim" -c 'compiler! sfcmon' -c "cgetfile $out" \
      -c "call writefile(map(getqflist(), 'json_encode(v:val)'), '${out%.out}.vim')" \
      -c 'call writefile(map(getqflist(), "bufname(v:val.bufnr)"), "names.tmp")' \
      -c 'qa!' </dev/null >/dev/null 2>&1
    mv names.tmp "${out%.out}.names" 2>/dev/null
  done
else
  echo "not asked, vim isn't there: the errorformat of Vim"
fi
if command -v node >/dev/null; then
  node "$here/editors/editors.js" "$top" "$work" >files.told
  add_counts files.told || { echo "editors.js: $(tail -n 1 files.told)"; failed=$((failed + 1)); }
else
  echo "not asked, node isn't there: the files of editors/"
fi

# note STATUS TITLE
note() { if [ "$1" = 0 ]; then passed=$((passed + 1)); else failed=$((failed + 1)); echo "not as it should be: $2"; fi; }

# ---- snippets: with their own words in place of what is asked for
python3 "$here/editors/snippets.py" "$top" "$program" >snippets.told
add_counts snippets.told || note 1 "snippets.py: $(tail -n 1 snippets.told)"

# ---- clients: what each prints is what is wanted of it

clients=$here/editors/clients
mkdir home
sed 's/:= Stop;/:= Stpo;/' "$examples/pump.chart" >refused.chart
cp "$examples/pump.chart" pump.chart
# client NAME SERVER CHART WORD..: runs the client over a chart with an empty home
client() {
  HOME=$work/home CHART=$work/$3 SERVER="$program $2" timeout 120 "${@:4}" >"$1.saw" 2>"$1.err" </dev/null
  diff "$1.saw" "$clients/$1.want"
  note $? "what $1 saw of $2: $(tail -n 3 "$1.err" | head -c 600)"
}
# has_emacs PACKAGE: whether Emacs has it
has_emacs() { command -v emacs >/dev/null && compgen -G "/usr/share/emacs/site-lisp/elpa/$1-*" >/dev/null; }
missing() { echo "not asked, $1 isn't there: what it sees of $2"; }

if command -v nvim >/dev/null; then client nvim lsp refused.chart nvim --headless -u NONE -i NONE -n -c "luafile $clients/nvim.lua"
else missing nvim lsp; fi
if command -v vim >/dev/null && vim --version | grep -q '+channel'; then
  client vim lsp refused.chart vim -N -u NONE -i NONE -es -S "$clients/vim.vim"
else missing "vim with channels" lsp; fi
if has_emacs eglot; then client eglot lsp refused.chart emacs -Q --batch -l "$clients/eglot.el"; else missing eglot lsp; fi
if has_emacs lsp-mode; then client lsp_mode lsp refused.chart emacs -Q --batch -l "$clients/lsp_mode.el"; else missing lsp-mode lsp; fi
if has_emacs dap-mode; then client dap_mode dap pump.chart emacs -Q --batch -l "$clients/dap_mode.el"; else missing dap-mode dap; fi

# ---- recorded sessions; what dap says in them is held to VS Code's declarations of its protocol

for server in lsp dap; do
  for session in "$here/editors/sessions/$server"/*.txt; do
    PLAY_LOG=$work/$server.log python3 "$here/editors/play.py" "$program" "$server" -- "$session" >played.told 2>&1
    note $? "$(head -c 1500 played.told)"
  done
done
if command -v tsc >/dev/null && [ -d /usr/share/nodejs/@vscode/debugprotocol ]; then
  python3 "$here/editors/types.py" dap.log >types.told 2>&1
  note $? "the messages of dap: $(head -c 1500 types.told)"
else missing "tsc or node-vscode-debugprotocol" "the messages of dap"; fi
tell_counts
