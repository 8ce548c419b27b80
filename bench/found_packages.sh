#!/usr/bin/env bash
# Makes an application of packages that nobody here wrote: Debian's node-* packages, which lie as npm packages below one folder.
#
# usage: bench/found_packages.sh FOLDER [DEBIAN_PACKAGE..]
#
# FOLDER gets `app`: a package.json, an index.js that requires each package that was asked for, and node_modules with these and with all that
# they depend on. Nothing is installed: apt-get says what an installation would take (`apt-get update` first, where it knows no packages), and
# what it downloads is unpacked. FOLDER stands outside the repository, and nothing of it is committed.
set -euo pipefail
[ $# -ge 1 ] || { sed -n '2,8s/^# \{0,1\}//p' "$0"; exit 2; }
room=$1
shift
[ $# -gt 0 ] || set -- node-ansi-styles node-argparse node-balanced-match node-brace-expansion node-bytes node-camelcase node-chalk node-clone \
  node-commander node-concat-map node-content-type node-cookie node-debug node-decamelize node-deep-equal node-deepmerge node-depd \
  node-escape-html node-escape-string-regexp node-etag node-express node-extend node-fresh node-glob node-graceful-fs node-has-flag \
  node-indent-string node-inherits node-ini node-is-plain-obj node-isarray node-js-yaml node-json5 node-lru-cache node-merge-descriptors \
  node-minimatch node-minimist node-mkdirp node-ms node-object-assign node-once node-p-limit node-path-is-absolute node-picocolors node-qs \
  node-range-parser node-resolve node-rimraf node-semver node-shebang-regex node-sprintf-js node-string-width node-strip-ansi node-type-is \
  node-uuid node-vary node-wordwrap node-wrappy node-yallist node-yargs
mkdir -p "$room/debs" "$room/tree"
room=$(cd "$room" && pwd)
# (what is installed already is not named by a simulation, so one that knows nothing is asked)
: >"$room/status"
apt-get install -s --no-install-recommends -o Dir::State::status="$room/status" "$@" |
  sed -n 's/^Inst \(\(node\|libjs\)-[^ ]*\) .*/\1/p' | sort -u >"$room/wanted"
[ -s "$room/wanted" ] || { echo 'apt-get names no package: apt-get update' >&2; exit 3; }
(cd "$room/debs" && xargs apt-get download -q <"$room/wanted" >/dev/null)
for deb in "$room"/debs/*.deb; do dpkg-deb -x "$deb" "$room/tree"; done
rm -rf "$room/app"
mkdir -p "$room/app/node_modules"
for from in "$room/tree/usr/share/nodejs" "$room/tree/usr/lib/nodejs"; do
  [ ! -d "$from" ] || cp -r "$from/." "$room/app/node_modules"
done
cd "$room/app"
names=()
for name in "${@#node-}"; do [ ! -f "node_modules/$name/package.json" ] || names+=("$name"); done
{
  echo '{ "name": "found", "dependencies": {'
  printf '  "%s": "*",\n' "${names[@]}" | sed '$s/,$//'
  echo '} }'
} >package.json
printf "exports['%s'] = require('%s');\n" $(printf '%s ' "${names[@]}" | sed 's/\([^ ]*\) /\1 \1 /g') >index.js
echo "$room/app: ${#names[@]} packages were asked for, $(find node_modules -name package.json | wc -l) manifests are there, $(du -sh . | cut -f1)"
