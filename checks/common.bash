# What the checks in shell share: a new folder to work in, which goes with the check, the rows that passed and failed, and the
# last line. A check sets `root` and has this read: . "$root/checks/common.bash"
check=${0##*/}
examples=$root/examples
passed=0
failed=0
# Nothing takes longer than so many seconds, on a busy machine either.
patience=600
work=$(mktemp -d)
trap 'chmod -R u+w "$work"; rm -rf "$work"' EXIT
cd "$work" || exit 1

# verdict NAME TEXT: counts a row; TEXT says what is wrong, and is empty if nothing is.
verdict() {
  if [ -z "$2" ]; then
    passed=$((passed + 1))
  else
    failed=$((failed + 1))
    printf 'FAILED %s: %s\n' "$1" "$2"
  fi
}

# is NAME WANTED GOT: both are the same.
is() {
  [ "$2" = "$3" ] && verdict "$1" '' || verdict "$1" "'$3' in place of '$2'"
}

# ended NAME STATUS GOT: a command ended with the status GOT, and printed to got.out and got.err; it must have ended with STATUS, and
# printed what want.out and want.err have.
ended() {
  local why=""
  [ "$3" = "$2" ] || why="status $3 in place of $2; "
  cmp -s want.out got.out || why+="standard output: $(head -c 300 got.out | tr -d '\0'); "
  cmp -s want.err got.err || why+="standard error: $(head -c 300 got.err)"
  verdict "$1" "$why"
}

skip() {
  echo "$check: skipped: $1"
}

# Prints the last line, and ends the check.
finish() {
  echo "$check: $passed passed, $failed failed"
  [ "$failed" = 0 ]
  exit
}

has() {
  command -v "$1" >/dev/null
}

# same NAME FILE FILE: the files are the same to the last byte.
same() {
  cmp -s "$2" "$3" && verdict "$1" '' || verdict "$1" "$(diff "$2" "$3" | head -n 5)"
}

# Sets `built` to the program: with TORUSMEM_UNPROVED=1 the kept look, which proves nothing, by a path whose last part is the
# program's name, else the proved one. Builds it first where that is still to be done; what this prints is no row.
find_program() {
  look=${TORUSMEM_UNPROVED-}
  if [ "$look" = 1 ]; then
    mkdir .look && ln -s "$(python3 "$root/launcher/look.py" 2>build)" .look/torusmem
    built=$work/.look/torusmem
  else
    env -u TORUSMEM "$root/torusmem" run "$examples/machine.txt" "$examples/script.txt" >/dev/null 2>build || true
    built=$root/crates/torusmem/out/torusmem
  fi
  [ -x "$built" ] || { verdict 'the program' "$(cat build)"; finish; }
}

# expect NAME STATUS OUT ERR TOOL WORD..: runs a tool of the folder `tools` on the words. OUT is a file of what it must print, to the
# last byte, or `-` for nothing; ERR is what stands on standard error, without the tool's name ahead of it, or empty. Where it
# names a text that torusmem refuses, in one line, a second one must begin with that text and its line, and say why.
expect() {
  local name=$1 status=$2 out=$3 err=$4 tool=$5 got reason
  [ "$out" = - ] && out=/dev/null
  cat "$out" >want.out
  printf '%s' "${err:+$tool: $err
}" >want.err
  timeout "$patience" "$tools/$tool" "${@:6}" >got.out 2>got.err
  got=$?
  case $err in
  *$'\n'*) ;;
  *': fault F'*' at line '* | *': bad report at line '*)
    reason=$(sed -n 2p got.err)
    [ "${reason#"${err%%: *}:${err##* }: "}" != "$reason" ] && sed -i 2d got.err || echo 'no reason' >>got.err
    ;;
  esac
  ended "$name" "$status" "$got"
}

# refused NAME STATUS ERR TOOL WORD..: the tool prints nothing but ERR.
refused() {
  expect "$4: $1" "$2" - "$3" "${@:4}"
}

# prints NAME STATUS TEXT ERR TOOL WORD..: the tool prints this text, of which \n ends a line.
prints() {
  printf '%b' "$3" >want.txt
  expect "$1" "$2" want.txt "${@:4}"
}

# helps TOOL WORD..: the tool's help names all of these.
helps() {
  local tool=$1 why="" word
  "$tools/$tool" --help >got.out 2>got.err || why="status $?; "
  for word in "usage: $tool" "${tools##*/}/$tool" "${@:2}"; do
    grep -qF -e "$word" got.out || why+="nothing of $word; "
  done
  [ -s got.err ] && why+="standard error: $(head -c 300 got.err)"
  verdict "$tool: help" "$why"
}

# Ends a check of tools where there is no Python.
needs_python() {
  has python3 || { verdict 'the tools' "there is no command 'python3' on the path: the tools are written in Python 3"; finish; }
}
