#!/bin/sh
# Makes a Debian package of what `./rddr build` builds: tools/package.sh [FOLDER] writes rddr_VERSION_ARCH.deb there, or
# where you stand. The machine that it is installed on needs no kit. VERSION is the day and the id of the last commit.
# It needs Debian's binutils and dpkg.
set -eu
top=$(cd -P -- "$(dirname -- "$0")/.." && pwd)
folder=$(cd -P -- "${1:-.}" && pwd)
"$top/rddr" build
program=$top/crates/rddr/out/rddr
version=$(git -C "$top" log -1 --date=format:%Y%m%d --format='%cd+%h')
[ -z "$(git -C "$top" status --porcelain)" ] || version=$version+edited
glibc=$(objdump -T "$program" | sed -n 's/.*GLIBC_\([0-9.]*\).*/\1/p' | sort -V | tail -n 1)
depends="libc6 (>= $glibc)"
if objdump -p "$program" | grep -q 'NEEDED.*libgcc_s'; then depends="$depends, libgcc-s1"; fi
architecture=$(dpkg --print-architecture)
package=$folder/rddr_${version}_$architecture.deb
tree=$(mktemp -d)
trap 'rm -rf "$tree"' EXIT
chmod 755 "$tree"

install -D -m 755 -s "$program" "$tree/usr/lib/rddr/rddr"
install -D -m 644 "$top/tools/serving.sh" "$tree/usr/lib/rddr/serving.sh"
mkdir -p "$tree/usr/bin" "$tree/etc/rddr"
cat >"$tree/usr/bin/rddr" <<'COMMAND'
#!/bin/sh
set -u
program=/usr/lib/rddr/rddr
. /usr/lib/rddr/serving.sh
[ "${1-}" != run ] || serve "$@"
exec "$program" "$@"
COMMAND
chmod 755 "$tree/usr/bin/rddr"
install -D -m 644 "$top/examples/rddr.service" "$tree/usr/lib/systemd/system/rddr.service"
install -D -m 644 "$top/docs/rddr.1" "$tree/usr/share/man/man1/rddr.1"
gzip -9n "$tree/usr/share/man/man1/rddr.1"
documents=$tree/usr/share/doc/rddr
mkdir -p "$documents"
install -m 644 "$top/README.md" "$top/docs/OPERATING.md" "$documents/"
cp -R "$top/examples" "$documents/examples"
rm -f "$documents/examples/rddr.service"
rm -rf "$documents/examples/demo/__pycache__"
chmod -R u=rwX,go=rX "$documents"

mkdir "$tree/DEBIAN"
cat >"$tree/DEBIAN/control" <<CONTROL
Package: rddr
Version: $version
Architecture: $architecture
Maintainer: The rddr developers <rddr@localhost>
Depends: $depends
Suggests: python3
Section: net
Priority: optional
Description: proxies that compare what diverse instances of a service say
 rddr runs one service as 3 to 8 diverse instances. It sends each request of a
 client to all of them, and lets a reply out only where all agree. It also
 merges the calls that the instances make to a backend into one.
CONTROL
dpkg-deb --root-owner-group --build "$tree" "$package"
