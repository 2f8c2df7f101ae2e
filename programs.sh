# How the programs are started, for the scripts beside this file, which source it. POSIX sh, and readlink -f.

# the scripts may be called from any folder and through a link: file names are the caller's, this is the repository
repository=$(dirname "$(readlink -f "$0")")
me=$(basename "$0")

fail() {
  printf '%s\n' "$1" >&2
  exit 1
}

# What a script cannot do without, and where it is missing is installed; that is said before.
need_python() {
  command -v python3 >/dev/null && return
  echo "$me: python3 is missing and is installed now, by apt-get" >&2
  { apt-get update -q && apt-get install -y -q python3; } >&2
}

# The crates of crates.txt that NAME stands on, itself among them, a line each.
stands_on() {
  awk -v name="$1" '
    { sub(/#.*/, ""); at = index($0, ":") }
    at { crate = substr($0, 1, at - 1); gsub(/[ \t]/, "", crate); deps[crate] = substr($0, at + 1) }
    function visit(crate,   part, i, n) {
      if (!(crate in deps) || crate in seen) return
      seen[crate] = 1
      n = split(deps[crate], part, " ")
      for (i = 1; i <= n; i++) visit(part[i])
      print crate
    }
    END { visit(name) }' "$repository/crates.txt"
}

# How long the crates take that are read from standard input: docs/TIMES.md has the seconds of one processor. Two take
# three quarters of their sum, as crates wait for those below them.
about() {
  awk '
    NR == FNR { crate[$1] = 1; next }
    split($0, column, "|") > 3 { name = column[2]; gsub(/[` ]/, "", name); if (name in crate) sum += column[3] }
    END { s = int(sum * 3 / 4) + 1; if (s < 100) print s " seconds"; else print int((s + 30) / 60) " minutes" }
  ' - "$repository/docs/TIMES.md"
}

# Whether the program is there, passed its own run (then a stamp is kept), and nothing of crates/ is newer, as after a
# pull.
is_built() {
  program=$repository/crates/$1/out/$1
  stamp=$repository/target/stamp/$1
  [ -x "$program" ] && [ -f "$stamp" ] && [ -z "$(find "$program" -newer "$stamp")" ] &&
    [ -z "$(find "$repository/crates" -name out -prune -o \( -name '*.rt' -o -name '*.antt' \) -newer "$stamp" -print |
      head -n 1)" ]
}

# A line for each crate that rt has proved. Those that were proved before it passes over.
count_proved() {
  proved=0
  crate=
  while IFS= read -r line; do
    case $line in
    "crate "*": modules "*)
      crate=${line#crate }
      crate=${crate%%:*}
      ;;
    "logic=proved "*)
      proved=$((proved + 1))
      echo "$me: $proved of $1, $crate proved" >&2
      ;;
    esac
  done
}

# The program's own run, on the words and files beside its sources: whether it says what stands there.
passes() (
  crate=$repository/crates/$1
  folder=$(mktemp -d)
  trap 'rm -rf "$folder"' EXIT
  mkdir "$folder/data"
  cp -R "$crate/data/." "$folder/data"
  program=$crate/out/$1
  set --
  while IFS= read -r word; do set -- "$@" "$word"; done <"$crate/args"
  (cd "$folder/data" && "$program" "$@" </dev/null >"$folder/said") && cmp -s "$folder/said" "$crate/stdout"
)

# Proves NAME and all that it stands on, and builds it. rt proves no crate twice whose files are as they were.
prove() {
  crates=$(stands_on "$1")
  count=$(printf '%s\n' "$crates" | wc -l)
  time=$(printf '%s\n' "$crates" | about)
  echo "$me: $1 is not built: proving the $count crates that it is made of, about $time on two processors" >&2
  mkdir -p "$repository/target/stamp"
  log=$repository/target/$1.check
  { (cd "$repository/crates/$1" && rt run 2>&1) && echo && echo built || echo "not built"; } |
    tee "$log" | count_proved "$count"
  [ "$(tail -n 1 "$log")" = built ] || {
    tail -n 20 "$log" >&2
    fail "$me: $1 could not be proved and built; $log has what rt says"
  }
  passes "$1" || fail "$me: $1 does not say what crates/$1/stdout has"
  touch "$repository/target/stamp/$1"
}

# Sees that NAME can be started. Where $SINGKHAROP_PROGRAMS names a folder its programs are taken, and nothing is built.
ready() {
  [ -z "${SINGKHAROP_PROGRAMS:-}" ] || return 0
  command -v rt >/dev/null || fail "$me: the Rattle kit (rt) is not here, which proves and builds the programs"
  is_built "$1" || prove "$1"
}

# Becomes the program NAME with these words; `ready NAME` goes before.
start() {
  name=$1
  shift
  [ -z "${SINGKHAROP_PROGRAMS:-}" ] || exec "$SINGKHAROP_PROGRAMS/$name" "$@"
  exec "$repository/crates/$name/out/$name" "$@"
}

# Room for what a program says. A signal ends the program too, and runs `leave` of the script, which tidies up.
asking=no
links=0                                 # how many names have a link
aside=                                  # what is written in the place of the output, if anything is
open_room() {
  room=$(mktemp -d)
  said=$room/said
  trap '[ -z "$aside" ] || rm -f -- "$aside" "$aside.part"; rm -rf "$room"' EXIT
  trap 'stopped 129' HUP
  trap 'stopped 130' INT
  trap 'stopped 143' TERM
  trap '' XFSZ                          # a limit on the size of files is then an error that the program can say
  # a program in the background would find /dev/null at /dev/stdin
  if (: <&0) 2>/dev/null; then exec 3<&0; else exec 3</dev/null; fi
}

stopped() {
  trap '' HUP INT TERM
  if [ "$asking" = yes ]; then
    kill "${!:-}" 2>/dev/null || :
    wait 2>/dev/null || :
  fi
  leave
  exit "$1"
}

# Starts the program NAME with these words and waits for its end; $said has what it says on standard output. It runs in
# the background, as a shell that waits for a program in the foreground hears a signal only when that has ended.
ask() {
  asking=yes
  ended=0
  start "$@" <&3 3<&- >"$said" &
  wait "$!" 2>/dev/null || ended=$?               # the shell's own word for a killed program is not wanted
  asking=no
  [ ! -f "$room/names" ] || { LC_ALL=C sed -f "$room/names" "$said" >"$room/right" && mv "$room/right" "$said"; }
}

# Whether the program's last line is this.
last_is() {
  [ "$(tail -n 1 "$said")" = "$1" ]
}

# What the program says, handed on. Its last line is `GOOD`, or `not GOOD` and the one before says why; else it was
# ended from outside. True where it is GOOD.
tell() {
  if last_is "$1"; then
    sed '$d' "$said" 2>/dev/null || :
    return 0
  elif last_is "not $1"; then
    sed '$d' "$said" | sed '$d' || :
    sed '$d' "$said" | tail -n 1 >&2
  else
    cat "$said" || :
    echo "$me: the program was ended before it was done (status $ended)" >&2
  fi
  return 1
}

# A program would wait for ever to open a pipe into which nobody writes, and it has to seek in its files.
refuse_pipes() {
  for file in "$@"; do
    [ ! -p "$file" ] || fail "$file: cannot be read: it is a pipe, and a file is needed"
  done
}

# Sets $out to the file that OUTPUT is or leads to. It is written beside that and moved there: so a link is followed
# before, which the move would replace, and a device or a folder is refused.
find_output() {
  out=$1
  if [ -L "$out" ]; then
    # the full stop keeps line ends that a name may end in
    out=$(readlink -f -- "$out" && echo .) || fail "$1: cannot be written: it is a link that leads nowhere"
    out=${out%??}
  fi
  if [ -e "$out" ] && [ ! -f "$out" ]; then
    fail "$1: cannot be written: it is no regular file"
  fi
}

# Whether something of this name stands there, a link that leads nowhere too.
is_there() {
  [ -e "$1" ] || [ -L "$1" ]
}

# The programs can open files whose names are text (UTF-8), as the library that does it for them. A file of another name
# is handed over under one that is, and `ask` puts the caller's name back into what the program says.
is_text() {
  printf '%s' "$1" | iconv -f UTF-8 -t UTF-8 >/dev/null 2>&1
}

# Sets $word to a link to NAME.
link_to() {
  links=$((links + 1))
  word=$room/word.$links.link
  case $1 in
  /*) ln -s -- "$1" "$word" ;;
  *) ln -s -- "$PWD/$1" "$word" ;;
  esac
}

# What the program calls $word is NAME.
is_called() {
  {
    printf 's|%s|' "$word"
    printf '%s' "$1" | LC_ALL=C sed -e 's/[\\&|]/\\&/g' -e '$!s/$/\\/'
    printf '|g\n'
  } >>"$room/names"
}

# Sets $word to NAME of a file to be read, or to what stands for it.
as_text() {
  word=$1
  ! is_text "$1" || return 0
  link_to "$1"
  is_called "$1"
}

# Sets $word to NAME of a file to be written, or to what stands for it: another in its folder, which `put_in_place`
# moves to NAME. Where NAME.part is in the way, this one's is so too.
as_text_out() {
  word=$1
  ! is_text "$1" || return 0
  folder=$(dirname -- "$1" && echo .)
  link_to "${folder%??}"
  word=$word/$(basename "$room").out
  is_called "$1"
  aside=$word
  ! is_there "$1.part" || : >"$aside.part"
}

put_in_place() {
  [ -z "$aside" ] || mv -f -- "$aside" "$1" 2>/dev/null || fail "$1: cannot be written: it could not be moved there"
}
