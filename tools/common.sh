# What the scripts share; they source it. It needs bash and leaves the working folder alone.
# shellcheck shell=bash

# The repository's root, and what the script calls itself in its messages.
root=$(cd "$(dirname "${BASH_SOURCE[0]}")/.." && pwd)
script=$(basename "$0")

# Says what is wrong and ends with 2.
fail() {
  echo "$script: $1" >&2
  exit 2
}

# Whether one of these words asks for help.
asks_for_help() {
  case " $* " in *" --help "* | *" -h "*) return 0 ;; esac
  return 1
}

# Prints the comment at a script's head.
head_comment() {
  awk 'NR > 1 && !/^#/ { exit } NR > 1 { sub(/^# ?/, ""); print }' "$1"
}

# Goes to the root, with ACE_SRC and ACE_LIB made absolute from where the script was called.
enter_root() {
  local name
  for name in ACE_SRC ACE_LIB; do
    case ${!name:-} in
      '') unset "$name" ;;
      /*) export "${name?}" ;;
      *) export "$name=$PWD/${!name}" ;;
    esac
  done
  cd "$root" || exit
}

# Says why there can be no comparison with the Rust, if so.
rust_is_absent() {
  local builder=crates/ace/src/compiler/dag/builder.rs source=${ACE_SRC:-../shared/docs/src}
  if ! command -v cargo > /dev/null; then
    echo "cargo, which builds the comparison, is not on the PATH (https://rustup.rs)"
  elif [ ! -e "$source/$builder" ] && [ ! -e "$source/src--${builder//\//--}.txt" ]; then
    echo "the Rust to compare with is not in $source; ACE_SRC names its folder, docs/src or a clone:"
    echo "  git clone https://github.com/0xMiden/miden-vm && git -C miden-vm checkout 614c9f3608"
  else
    return 1
  fi
}

# Ends with 2 where there can be no comparison with the Rust.
need_rust() {
  local why
  if why=$(rust_is_absent); then fail "$why"; fi
}

# Names a crate, then those below it.
crates_below() {
  awk -v crate="$1" '
    !/^#/ && sub(/( +staticlib)? *:/, " ") { for (i = 2; i <= NF; i++) needs[$1] = needs[$1] " " $i }
    END {
      queue[last = 1] = crate
      seen[crate]
      for (next_one = 1; next_one <= last; next_one++) {
        print queue[next_one]
        count = split(needs[queue[next_one]], more, " ")
        for (i = 1; i <= count; i++)
          if (!(more[i] in seen)) { seen[more[i]]; queue[++last] = more[i] }
      }
    }' "$root/crates.txt"
}

# Runs rt in a crate's folder (built VERB CRATE), a line for each crate that it proves; all that it said where it fails.
built() {
  local verb=$1 crate=$2 log
  command -v rt > /dev/null ||
    fail "$crate is not built or older than its sources, and rt, the Rattle kit that builds it, is not on the PATH"
  echo "proving and building $crate, about five minutes the first time; a line for each crate:" >&2
  log=$(mktemp)
  # What a program writes, which runs on no input, is of no use here.
  if ! (cd "$root/crates/$crate" && rt "$verb" < /dev/null 2>&1 | tee "$log" |
    awk '/^crate [^ ]+: / { name = substr($2, 1, length($2) - 1) } /^logic=proved / { print name " is proved"; fflush() }' >&2); then
    cat "$log" >&2
    rm -f "$log"
    fail "rt $verb failed in crates/$crate; the lines above say where"
  fi
  rm -f "$log"
}

# Sees that a program (fresh program NAME: target/bin/NAME) or an archive (fresh archive NAME: target/staticlib/libNAME.a, or
# that of the folder ACE_LIB) is there and not older than its sources: has rt make it in the crate's out/ and copies it.
fresh() {
  local kind=$1 name=$2 crate=$2 verb file made
  case $kind in
    program) verb=run file=$root/target/bin/$name made=$name ;;
    archive)
      # Crate ace is the library of the calls, and ace_c exports them.
      [ "$name" != ace ] || crate=ace_c
      verb=lib file=${ACE_LIB:-$root/target/staticlib}/lib$name.a made=lib$crate.a
      ;;
  esac
  made=$root/crates/$crate/out/$made
  "$root"/tools/stale "$file" "$crate" || return 0
  if [ "$kind" = archive ] && [ -n "${ACE_LIB:-}" ]; then
    fail "$file is missing or older than its sources; ACE_LIB names its folder"
  fi
  if "$root"/tools/stale "$made" "$crate"; then
    built "$verb" "$crate"
    [ -e "$made" ] || fail "rt $verb wrote no $made"
    touch "$made"
  fi
  mkdir -p "$(dirname "$file")"
  cp "$made" "$file.new"
  mv "$file.new" "$file"
}

# Builds a Rust program of the repository: its name, how long that takes, and more words of cargo.
rust_program() {
  local name=$1 takes=$2
  shift 2
  [ -e "$root/rust/target/release/$name" ] || echo "building the Rust program $name, $takes" >&2
  cargo build --quiet --release --manifest-path "$root/rust/Cargo.toml" --target-dir "$root/rust/target" -p "$name" "$@" ||
    fail "the Rust program $name can't be built; the lines above say why"
}
