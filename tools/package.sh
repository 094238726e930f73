#!/usr/bin/env bash
# Makes a Debian package of proved programs, so that it can be installed without the toolchain:
#
#   tools/package.sh [FOLDER]            writes FOLDER/tapestry_VERSION_ARCHITECTURE.deb (out/), and its path
#   tools/package.sh --trial [FOLDER]    the same, then tries it in a clean root, by tools/package_trial.sh
#
# The programs are those that `rt ci` or `tools/build.py program NAME` left in crates/NAME/out/NAME. PROGRAM and POP_PROGRAM
# name others, which are taken as they are. All else is of this checkout: service/ with its pages, and docs/.
#
# The version is that of the last tag v.., if there is one, else the moment of the last commit, and the commit. Made twice of one
# commit and the same programs it is the same file: its times are those of the commit, or of SOURCE_DATE_EPOCH. MAINTAINER is the
# address in it; if it isn't set, that of the commit. It needs dpkg-deb, git, gzip and strip (binutils); if lintian is there, its
# errors fail the script. The status is 0 if the package was made.
set -euo pipefail
export LC_ALL=C TZ=UTC
umask 022
top="$(cd "$(dirname "$0")/.." && pwd)"
package="$top/service/package"

# Says what is wrong, and ends.
fail() {
  echo "package: $1" >&2
  exit 1
}

trial=
if [ "${1:-}" = --trial ]; then
  trial=yes
  shift
fi
case "${1:-}" in
  -*)
    sed -n '2,13s/^# \{0,1\}//p' "$0" >&2
    exit 2
    ;;
esac
folder="${1:-$top/out}"
for tool in dpkg-deb git gzip strip; do
  command -v "$tool" >/dev/null || fail "$tool is missing: apt install dpkg git gzip binutils"
done

# The program of a crate, PATH if it is given.
program_of() {
  local path="${2:-$top/crates/$1/out/$1}"
  [ -x "$path" ] || fail "$path isn't there: \`tools/build.py program $1\` proves and builds it"
  # It runs here, with nothing to do.
  if [ "$1" = tapestry ]; then
    "$path" </dev/null >/dev/null || fail "$path doesn't run"
  fi
  echo "$path"
}
tapestry="$(program_of tapestry "${PROGRAM:-}")"
tapestry_pop="$(program_of tapestry_pop "${POP_PROGRAM:-}")"

commit="$(git -C "$top" rev-parse --short=10 HEAD)"
export SOURCE_DATE_EPOCH="${SOURCE_DATE_EPOCH:-$(git -C "$top" log -1 --format=%ct)}"
maintainer="${MAINTAINER:-$(git -C "$top" log -1 --format='%an <%ae>')}"
if tag="$(git -C "$top" describe --tags --match 'v[0-9]*' 2>/dev/null)"; then
  version="$(sed 's/^v//; s/-\([0-9]*\)-g/+\1.g/; s/-/~/g' <<<"$tag")"
else
  version="0.$(date -d "@$SOURCE_DATE_EPOCH" +%Y%m%d.%H%M%S).g$commit"
fi
# A checkout that was changed is no commit.
[ -z "$(git -C "$top" status --porcelain -- service docs tools/package.sh)" ] || version="$version+changed"
version="$version-1"
architecture="$(dpkg --print-architecture)"

root="$(mktemp -d)"
trap 'rm -rf "$root"' EXIT
chmod 755 "$root"

# put MODE SOURCE.. TARGET puts files into the package.
put() {
  local mode="$1"
  shift
  install -D -m "$mode" "$@"
}

# The programs. Without its symbols a program does the same: what is loaded isn't touched.
put 755 "$tapestry" "$root/usr/bin/tapestry"
put 755 "$tapestry_pop" "$root/usr/bin/tapestry_pop"
strip --strip-all --remove-section=.comment --remove-section=.note "$root/usr/bin/tapestry" "$root/usr/bin/tapestry_pop"
# The C library that they were built for: the greatest version of its symbols.
glibc="$(grep -ahoE 'GLIBC_2\.[0-9]+' "$root/usr/bin/tapestry" "$root/usr/bin/tapestry_pop" | sort -V | tail -n 1)"

# The service. A package names the system's Python, and no program of a clone.
share="$root/usr/share/tapestry"
(cd "$top/service" && find tapestry_service -name '*.py' -print0) | while IFS= read -r -d '' file; do
  put 644 "$top/service/$file" "$share/$file"
done
for name in tap tapestryd; do
  put 755 "$top/service/$name" "$share/$name"
  sed -i '1s,^#!.*,#!/usr/bin/python3,' "$share/$name"
done
mkdir -p "$root/usr/sbin"
ln -s ../share/tapestry/tap "$root/usr/bin/tap"
ln -s ../share/tapestry/tapestryd "$root/usr/sbin/tapestryd"
put 644 "$top/service/tapestryd.service" "$root/lib/systemd/system/tapestryd.service"
put 644 "$top/service/completion/tap" "$root/usr/share/bash-completion/completions/tap"
put 755 "$package/rtupdate" "$root/usr/share/python3/runtime.d/tapestry.rtupdate"
put 644 "$package/rules" "$root/etc/tapestry/rules"
for page in "$top"/service/man/*.[1-9]; do
  put 644 "$page" "$root/usr/share/man/man${page##*.}/$(basename "$page")"
done
find "$root/usr/share/man" -type f -exec gzip -9n {} +

# Pages.
doc="$root/usr/share/doc/tapestry"
put 644 -t "$doc" "$package/README.Debian" "$top/docs/GUIDE.md" "$top/docs/REFERENCE.md"
put 755 -t "$doc/examples" "$top/examples/mail-script.sh" "$top/examples/pop-session.sh" "$top/examples/digest-mail.sh"
sed "s/@COMMIT@/$commit/" "$package/copyright.in" >"$doc/copyright"
cat >"$doc/changelog.Debian" <<END_OF_CHANGES
tapestry ($version) bookworm; urgency=medium

  * Built from the commit $commit.

 -- $maintainer  $(date -R -d "@$SOURCE_DATE_EPOCH")
END_OF_CHANGES
gzip -9n "$doc/changelog.Debian"
put 644 "$package/lintian-overrides" "$root/usr/share/lintian/overrides/tapestry"

# The control files.
mkdir "$root/DEBIAN"
size="$(du -sk --apparent-size --exclude=DEBIAN "$root" | cut -f 1)"
sed -e "s/@VERSION@/$version/; s/@ARCHITECTURE@/$architecture/; s/@SIZE@/$size/; s/@GLIBC@/${glibc#GLIBC_}/" \
  -e "s/@MAINTAINER@/$maintainer/" "$package/control.in" >"$root/DEBIAN/control"
echo /etc/tapestry/rules >"$root/DEBIAN/conffiles"
for script in postinst prerm postrm; do
  put 755 "$package/$script" "$root/DEBIAN/$script"
done
(cd "$root" && find . -path ./DEBIAN -prune -o -type f -printf '%P\0' | sort -z | xargs -0 md5sum) >"$root/DEBIAN/md5sums"

mkdir -p "$folder"
file="$folder/tapestry_${version}_$architecture.deb"
find "$root" -exec touch --no-dereference --date="@$SOURCE_DATE_EPOCH" {} +
dpkg-deb --root-owner-group -Zxz --threads-max=1 --build "$root" "$file" >/dev/null
if command -v lintian >/dev/null; then
  lintian --fail-on error --tag-display-limit 0 --allow-root "$file" >&2 || fail "lintian finds errors in $file"
else
  echo 'package: lintian is missing, so nobody looked at the package' >&2
fi
echo "$file"
[ -z "$trial" ] || "$top/tools/package_trial.sh" "$file"
