#!/usr/bin/env bash
# The release: `make install` into a folder outside the tree, and there tests/outside.c built against the installed files alone, by what pkg-config says, and
# run; the installed tools plan a hall; a staged install has the same files, and `make uninstall` takes all of them away; VERSION is that of header, archive,
# pkg-config file and CHANGELOG; the man pages are whole; docs/ has 01, 02 and the demands as they were given. WAGONPLAN_ARCHIVE and WAGONPLAN may name an
# archive and a program that are built already.
set -eu
cd "$(dirname "$0")/.."
archive=$(realpath "$(tools/archive.sh)")
program=$(realpath "${WAGONPLAN:-target/bin/wagonplan}")
[ -x "$program" ] || { echo "there is no program $program: run tools/program.sh first" >&2; exit 1; }
away=$(mktemp -d)
trap 'rm -rf "$away"' EXIT
unset WAGONPLAN WAGONPLAN_ARCHIVE MAKEFLAGS
fail() { echo "$1" >&2; exit 1; }

built="WAGONPLAN_ARCHIVE=$archive WAGONPLAN=$program"
make -s install PREFIX="$away/usr" $built
make -s install PREFIX=/usr DESTDIR="$away/stage" $built
diff <(cd "$away/usr" && find . -type f | sort) <(cd "$away/stage/usr" && find . -type f | sort) || fail "a staged install has other files"
grep -rlF "$PWD" "$away/usr" && fail "these name the folder that they were installed from"
grep -rlF "$away" "$away/stage" && fail "these name the stage"

# What pkg-config says; where it isn't there, what the file says.
said() {
    if command -v pkg-config >/dev/null; then
        PKG_CONFIG_PATH=$away/usr/lib/pkgconfig PKG_CONFIG_ALLOW_SYSTEM_CFLAGS=1 pkg-config "--$1" wagonplan
    else
        case $1 in cflags) echo "-I$away/usr/include" ;; libs) echo "-L$away/usr/lib -lwagonplan" ;; modversion) sed -n 's/^Version: //p' "$away/usr/lib/pkgconfig/wagonplan.pc" ;; esac
    fi
}
mkdir "$away/host"
cp tests/outside.c "$away/host/mine.c"
(
    cd "$away/host"
    for by in gcc clang; do
        command -v $by >/dev/null || continue
        $by -std=c99 -O2 -Wall -Wextra -pedantic -Werror $(said cflags) -o mine mine.c $(said libs)
        ./mine >"said.$by"
    done
    gcc -std=c99 -M $(said cflags) mine.c >needs
)
grep -F "$PWD/" "$away/host/needs" && fail "the host takes a file of the tree"
calls=$(cat "$away/host/said.gcc")

# The version of the library has that of the calls in its middle.
version=$(cat VERSION)
[[ $version =~ ^[0-9]+\.([0-9]+)\.[0-9]+$ ]] || fail "VERSION is $version"
[ "${BASH_REMATCH[1]}" = "$calls" ] || fail "VERSION is $version, the calls are of version $calls"
[ "$(said modversion)" = "$version" ] || fail "pkg-config says $(said modversion)"
[ "$(sed -nE 's/^## ([0-9.]+).*/\1/p' CHANGELOG.md | head -n 1)" = "$version" ] || fail "the first entry of CHANGELOG is not $version"

# The installed program and tools, away from the tree.
(cd / && "$away/usr/bin/wagonplan-plan" "$away/usr/share/wagonplan/halls/doorway.txt" --plan "$away/plan.svg" --exact) | grep -v '^Every choice was walked' >"$away/words"
cmp "$away/words" examples/halls/doorway.words || fail "the installed tools say something else"
[[ $(cd / && "$away/usr/bin/wagonplan-hall" --version) == *" $version,"* ]] || fail "the installed tools are of another version"
[ -s "$away/plan.svg" ] || fail "no plan is drawn"

# The answers that the page shows are the program's.
for hall in docs/page/*.answer; do
    name=$(basename "$hall" .answer)
    tools/hall job "examples/halls/$name.txt" | "$program" | od -An -v -tx1 | tr -d ' \n' | tr a-f A-F | diff - <(tr -d '\n' <"$hall") >/dev/null || fail "$hall is not the program's answer"
done

if command -v groff >/dev/null; then
    for page in man/*.[15]; do
        warned=$(groff -ww -man -Tutf8 -z "$page" 2>&1)
        [ -z "$warned" ] || fail "$page: $warned"
    done
fi
for word in $(sed -nE 's/^\| `([a-z]+) .*/\1/p' docs/HOST.md | sort -u); do
    grep -qE "^\.B[IR]? \"?$word\b" man/hall.5 || fail "man/hall.5 has no $word"
done

for given in 00-demands 01-scope 02-change-requests; do
    [ ! -e "../shared/$given.md" ] || cmp "../shared/$given.md" "docs/$given.md"
done

make -s uninstall PREFIX=/usr DESTDIR="$away/stage"
left=$(find "$away/stage" -type f)
[ -z "$left" ] || fail "uninstall leaves $left"
echo "version $version, calls $calls: installed, built against, taken away again"
