# shellcheck shell=bash
# shellcheck disable=SC2154
# What ./puckerledge installs and packs; it sources this, and says in `top` where the repository is and in `program` the program.

# The version: that of the program, and the time and the beginning of the commit at hand.
version() {
  local number=1.0 commit changed=""
  commit=$(cd "$top" && TZ=UTC0 git log -1 --date=format-local:%Y%m%d.%H%M --format=%cd.%H 2> /dev/null) || { echo "$number"; return; }
  if [ -n "$(git -C "$top" status --porcelain)" ]; then changed=+changed; fi
  echo "$number~${commit:0:22}$changed"
}

# put FROM TO [MODE]: a file under its name, by way of another one, so that whoever has the old one open keeps it.
put() {
  install -D -m "${3:-644}" "$1" "$2.new" && mv "$2.new" "$2"
}

# made TO AWK [WORD ..]: a file that one of the scripts beside this makes of docs/COMMANDS.md.
made() {
  local to=$1 script=$2
  shift 2
  mkdir -p "$(dirname "$to")" && LC_ALL=C awk "$@" -f "$top/install/$script" "$top/docs/COMMANDS.md" > "$to"
}

# tree_below FOLDER: the program and what stands in front of it, the manual page and the completions.
tree_below() {
  local parts="$1/lib/puckerledge" share="$1/share" part
  put "$program" "$parts/puckerledge" 755 &&
    for part in front.sh progress.bash help.awk; do put "$top/install/$part" "$parts/$part" || return; done &&
    put "$top/docs/COMMANDS.md" "$parts/COMMANDS.md" &&
    version > "$parts/version" &&
    made "$share/man/man1/puckerledge.1" manual.awk &&
    made "$share/bash-completion/completions/puckerledge" completion.awk &&
    made "$share/zsh/site-functions/_puckerledge" completion.awk -v shell=zsh &&
    made "$share/fish/vendor_completions.d/puckerledge.fish" completion.awk -v shell=fish &&
    put "$top/install/many.sh" "$1/bin/puckerledge-many" 755 &&
    put "$top/install/command.sh" "$1/bin/puckerledge" 755
}
