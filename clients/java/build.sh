#!/usr/bin/env bash
# Makes the client's jar, and with --doc its documentation too. What is public and lacks a comment is a fault. Nothing is fetched.
# Usage: clients/java/build.sh [--doc FOLDER] JAR   (from anywhere; wants a JDK, 17 or later)
set -eu
here=$(cd "$(dirname -- "${BASH_SOURCE[0]}")" && pwd)
doc=
if [ "${1-}" = --doc ]; then doc=$2 && shift 2; fi
[ $# -eq 1 ] || { sed -n 's/^# Usage: /usage: /p' "$0" >&2; exit 2; }
work=$(mktemp -d)
trap 'rm -rf "$work"' EXIT
version=$(sed -n 's/^__version__ = "\(.*\)"$/\1/p' "$here/../python/tabd/__init__.py")
find "$here/src" -name '*.java' | sort >"$work/sources"
javac -J-XX:TieredStopAtLevel=1 --release 17 -Xlint:all -Xdoclint:all/protected -Werror -d "$work/classes" "@$work/sources"
jar --create --file "$1" --module-version "$version" -C "$work/classes" .
[ -z "$doc" ] || javadoc -J-XX:TieredStopAtLevel=1 -J-XX:+UseSerialGC -quiet -Xdoclint:all -Werror -d "$doc" "@$work/sources"
