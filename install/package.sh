# shellcheck shell=bash
# shellcheck disable=SC2154
# How ./puckerledge packs: it sources this after install/tree.sh. The same commit, program, kit and line of the gate give the same
# bytes on each machine.

# head COMMIT-FORMAT: of the commit at hand.
head_commit() {
  git -C "$top" log -1 --format="$1"
}

# The kit that is here.
kit() {
  rt version 2> /dev/null || echo "not known: there was no rt in PATH when this was packed"
}

# The logic that the program itself names, as the compiler has put it there.
logic() {
  readelf -p .comment "$program" | sed -n 's/.*rattle logic=\([0-9a-f]*\).*/\1/p'
}

# gate FILE: the last line of the gate's output FILE; without one what .ci/run kept, if it was this commit and this program.
gate() {
  local line="" commit sum
  if [ "$1" ]; then
    line=$(grep -E '^[0-9]+ passed, [0-9]+ failed$' "$1" | tail -n 1)
  elif read -r commit sum line < "$top/crates/m2v_main/out/gate" &&
    [ "$commit $sum" != "$(head_commit %H) $(sha256sum < "$program" | cut -d' ' -f1)" ]; then
    line=""
  fi 2> /dev/null
  echo "${line:-not known: no output of a gate for this commit and program was at hand}"
}

# The greatest version of the C library whose names the program uses.
needs_libc() {
  objdump -T "$program" | grep -o 'GLIBC_[0-9.]*' | sort -Vu | tail -n 1 | cut -d_ -f2
}

proved() {
  cat << END_OF_TEXT
Puckerledge $1

Each function of the program was proved to meet its contract before it was built: README.md, What is proved, says which
promises these make, and what is trusted. The compiler writes into a program in which logic it was proved.

commit        $(head_commit %H)
of            $(head_commit %cI)
kit           $(kit)
logic         $(logic)
gate          $(gate "$2")
SHA-256       $(sha256sum < "$program" | cut -d' ' -f1)  lib/puckerledge/puckerledge

The gate runs every proof, every wrong body that must be refused, every test, and the built program from outside. At the
commit, with the kit, .ci/run runs it again, and the program that it builds is to have this SHA-256.
END_OF_TEXT
}

control() {
  local bytes
  bytes=$(find "$2/usr" -type f -printf '%s\n' | awk '{ all += int(($1 + 1023) / 1024) } END { print all }')
  cat << END_OF_TEXT
Package: puckerledge
Version: $1
Architecture: amd64
Maintainer: $(head_commit '%an <%ae>')
Installed-Size: $bytes
Depends: libc6 (>= $(needs_libc))
Suggests: parallel
Section: video
Priority: optional
Description: MPEG-2 video encoder, decoder and buffer checker, proved
 Codes raw video as MPEG-2 elementary streams at constant rate, decodes such
 streams exactly, and says whether a stream keeps its level's rules and the
 decoder's buffer. What the program promises is proved;
 /usr/share/doc/puckerledge/PROVED says of which commit and by which logic.
END_OF_TEXT
}

# packed_tree FOLDER VERSION GATE: the tree of both packages, below FOLDER/usr.
packed_tree() {
  local usr="$1/usr" texts="$1/usr/share/doc/puckerledge" file
  tree_below "$usr" &&
    mkdir -p "$texts/docs/pictures" "$usr/share/zsh/vendor-completions" &&
    mv "$usr/share/zsh/site-functions/_puckerledge" "$usr/share/zsh/vendor-completions" && rmdir "$usr/share/zsh/site-functions" &&
    gzip -9n "$usr/share/man/man1/puckerledge.1" &&
    cp "$top/README.md" "$texts" &&
    cp "$top"/docs/pictures/* "$texts/docs/pictures" || return
  for file in BITSTREAM COMMANDS ENCODER MANY PROMISES; do
    cp "$top/docs/$file.md" "$texts/docs" || return
  done
  for file in "$top"/LICEN[CS]E* "$top"/COPYING*; do
    if [ -f "$file" ]; then cat "$file" >> "$texts/copyright" || return; fi
  done
  proved "$2" "$3" > "$texts/PROVED" || return
  find "$usr" -type d -exec chmod 755 {} + -o -type f -perm /111 -exec chmod 755 {} + -o -type f -exec chmod 644 {} +
}

# package_into FOLDER GATE: makes puckerledge_VERSION_amd64.deb and .tar.gz in FOLDER.
package_into() {
  local version name room tool
  for tool in git dpkg-deb objdump readelf; do
    if ! command -v "$tool" > /dev/null; then echo "puckerledge: there is no $tool, which packing wants" >&2; return 1; fi
  done
  version=$(version)
  case $version in
    *+changed) echo "puckerledge: commit first: a package says which commit it is of" >&2; return 1 ;;
    *~*) ;;
    *) echo "puckerledge: this folder is no git repository: a package says which commit it is of" >&2; return 1 ;;
  esac
  if [ -z "$(logic)" ]; then echo "puckerledge: the program doesn't say in which logic it was proved" >&2; return 1; fi
  if [ "$2" ] && [ ! -r "$2" ]; then echo "puckerledge: $2 can't be read" >&2; return 1; fi
  name=puckerledge_${version}_amd64
  room=$(mktemp -d) || return
  SOURCE_DATE_EPOCH=$(head_commit %ct)
  export SOURCE_DATE_EPOCH
  mkdir -p "$1" && packed_tree "$room/tree" "$version" "$2" && debian "$room/tree" "$version" "$1/$name.deb" &&
    archive "$room/tree" "puckerledge-$version" "$1/$name.tar.gz" && echo "puckerledge: made $1/$name.deb and .tar.gz" >&2
  set -- $?
  rm -rf "$room"
  return "$1"
}

# debian TREE VERSION FILE. gzip: what xz writes hangs on how many processors there are.
debian() {
  mkdir "$1/DEBIAN" && control "$2" "$1" > "$1/DEBIAN/control" &&
    (cd "$1" && find usr -type f -print0 | LC_ALL=C sort -z | xargs -0 md5sum) > "$1/DEBIAN/md5sums" &&
    find "$1" -exec touch -h -d "@$SOURCE_DATE_EPOCH" {} + && chmod 755 "$1" "$1/DEBIAN" && chmod 644 "$1"/DEBIAN/* &&
    dpkg-deb --root-owner-group -Zgzip -z9 --build "$1" "$3" > /dev/null
}

# archive TREE NAME FILE: the same files below one folder.
archive() {
  tar --sort=name --format=gnu --owner=0 --group=0 --numeric-owner --mtime="@$SOURCE_DATE_EPOCH" -C "$1/usr" \
    --transform="s|^\\.|$2|" -cf - . | gzip -9n > "$3"
}
