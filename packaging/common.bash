# What the scripts that pack share: the version, the time of all files, and a staged installation. Sourced, not run.

root=$(cd "$(dirname "$(readlink -f "${BASH_SOURCE[0]}")")/.." && pwd)
version=$(sed -n 's/^#define TORUSMEM_VERSION "\(.*\)"/\1/p' "$root/include/torusmem.h")
# The time of every packed file: SOURCE_DATE_EPOCH, or that of the commit.
epoch=${SOURCE_DATE_EPOCH:-$(git -C "$root" log -1 --format=%ct 2>/dev/null || echo 0)}
export SOURCE_DATE_EPOCH=$epoch LC_ALL=C
dist=${OUT:-$root/out/dist}
umask 022

stop() {
  echo "${0##*/}: $1" >&2
  exit 1
}

need() {
  command -v "$1" >/dev/null || stop "there is no command '$1' on the path"
}

# staged FOLDER PREFIX [NAME=VALUE..]: installs into FOLDER as if it were the root, but without the list of an installation.
staged() {
  env -u LIBDIR -u BINDIR -u MANDIR DESTDIR="$1" PREFIX="$2" "${@:3}" "$root/packaging/install" install >/dev/null
  rm "$1$2/share/torusmem/installed"
}

# glibc_of FILE: the least glibc with which it starts.
glibc_of() {
  grep -ao 'GLIBC_2\.[0-9.]*' "$1" | sort -uV | tail -n 1 | sed 's/GLIBC_//'
}

# The sums of all that lies in the folder of archives.
sums() {
  (cd "$dist" && find . -maxdepth 1 -type f ! -name SHA256SUMS -printf '%f\0' | sort -z | xargs -0 sha256sum >SHA256SUMS)
}
