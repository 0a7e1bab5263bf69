#!/bin/sh
# Makes an archive of the program for others, and a wheel of the Python package with the program in it. Tries both in an empty
# folder, where there is neither this repository nor the toolchain.
#
#     dev/release.sh [FOLDER]     FOLDER is where they go: out/ at the top of the repository, if none is named
#
# The program is crates/gmus/out/gmus, as `./gmus` builds it, or the one that the variable GMUS names; the version is the
# first one of CHANGELOG.md. The archive has the program, the tools for users, the examples, the documents, the licences, the
# toolchain's line, what pip needs, and a checksum for each file. The wheel is made of the unpacked archive, by the first Python
# that has pip, setuptools and wheel, and is left out if none has. It is installed without a network. What is left out of it is named below. Ends with 1 if something fails.
top=$(CDPATH='' cd -- "$(dirname -- "$0")/.." && pwd) || exit 1
program=${GMUS:-$top/crates/gmus/out/gmus}

# tests of what isn't in the archive
OUR_TESTS='test_crates.py test_documents.py test_launcher.py test_release.py test_shown.py test_trials.py test_wrong.py'
# what the program may need of a system
SYSTEMS='linux-vdso.so.1 libc.so.6 ld-linux-x86-64.so.2'

fails() { # what is wrong
    echo "release.sh: $1" >&2
    exit 1
}

# the libraries that the program needs besides the C library, if any
foreign_libraries() {
    ldd "$program" | while read -r library _; do
        case " $SYSTEMS " in
            *" ${library##*/} "*) ;;
            *) echo "$library" ;;
        esac
    done
}

# the first source, if any, that is newer than the program
newer_source() {
    find "$top/crates.txt" "$top"/crates/*/src "$top"/crates/*/specs "$top"/crates/*/proofs -newer "$program" 2>/dev/null |
        head -n 1
}

# the newest version of the C library that the program asks for
c_library() {
    grep -ao 'GLIBC_[0-9.]*[0-9]' "$program" | sort -uV | tail -n 1
}

# what the program was made of and by
made_of() {
    echo "gmus $version, for $(uname -s) on $(uname -m)"
    echo "commit: $(git -C "$top" rev-parse HEAD)$([ -z "$(git -C "$top" status --porcelain)" ] || echo ', with changes')"
    echo "toolchain: $(rt version)"
    echo "C library: $(c_library) or newer"
    echo "program, SHA-256: $(sha256sum <"$program" | cut -d ' ' -f 1)"
}

fill() { # the archive's folder
    mkdir "$1" "$1/bin" "$1/docs" "$1/bench" || return 1
    cp "$program" "$1/bin/gmus" && chmod 755 "$1/bin/gmus" || return 1
    cp "$top/gmus" "$top/places.py" "$top/pyproject.toml" "$top/setup.py" "$top/README.md" "$top/CHANGELOG.md" "$top/CONTRIBUTING.md" "$top"/LICENSE-* "$1" || return 1
    cp "$top"/docs/* "$1/docs" && cp -R "$top"/bench/*.md "$top/bench/measures" "$1/bench" || return 1
    cp -R "$top/examples" "$top/checks" "$top/oracles" "$top/tools" "$1" || return 1
    find "$1" -name __pycache__ -exec rm -rf {} + || return 1
    for test in $OUR_TESTS; do
        rm "$1/tools/tests/$test" || return 1
    done
    "$top/dev/licences.py" "$1/licences" || return 1
    made_of >"$1/MADE-OF" || return 1
    (cd "$1" && find . -type f ! -name SHA256SUMS | LC_ALL=C sort | xargs -d '\n' sha256sum) >"$1/SHA256SUMS"
}

try() { # what is tried, the wanted output or nothing, the words
    what=$1 wanted=$2
    shift 2
    env -i PATH=/usr/bin:/bin HOME="$room/empty" "$@" >"$room/out" 2>"$room/err" </dev/null
    status=$?
    if [ $status -ne 0 ] || { [ -n "$wanted" ] && ! cmp -s "$room/out" "$wanted"; }; then
        cat "$room/out" "$room/err" >&2
        fails "tried in an empty folder: $what: status $status, and see above"
    fi
    echo "tried: $what$([ -n "$wanted" ] || sed -n 's/^\(Ran .*\) in .*/: \1/p' "$room/err")"
}

try_archive() { # the archive
    mkdir "$room/empty" && cd "$room/empty" && tar xzf "$1" && cd "$name" || fails "the archive can't be unpacked"
    try 'its checksums' '' sha256sum -c --quiet SHA256SUMS
    try 'gmus list' examples/laptop.report ./gmus list examples/laptop.gcnf
    { echo "gmus $version" && sed -n '/^toolchain: /p' MADE-OF; } >"$room/version"
    try 'gmus --version' "$room/version" ./gmus --version
    try 'gmus check' examples/first.report ./gmus check examples/first.gcnf examples/first.evidence
    try 'gmus drill' '' ./gmus drill 7 12
    try 'examples/check.sh' '' examples/check.sh "$PWD/bin/gmus"
    try "the tools' tests" '' env GMUS="$PWD/bin/gmus" python3 -m unittest discover -v -s tools/tests
    sed -n 's/.*\.\.\. skipped/skipped:/p' "$room/err"
    echo "left out, since they need the repository: $OUR_TESTS"
}

# the first Python, if any, that makes wheels; setuptools is imported first, since it wants its own distutils
maker() {
    for python in python3 /usr/bin/python3; do
        "$python" -c 'import setuptools, wheel, pip, venv' 2>/dev/null && echo "$python" && return
    done
}

# what the first page shows of a command over the laptop's rules
first_page() {
    sed -n '/^\$ tools\/clash.py examples\/laptop.rules --first 1$/,/^```$/p' "$top/README.md" | sed '1d;$d'
}

# Makes the wheel of the folder that was unpacked, and tries it in a virtual environment that has nothing else.
try_wheel() {
    "$python" -m pip wheel -q --no-build-isolation --no-deps --no-index -w "$room/wheel" "$room/empty/$name" >&2 || fails "the wheel can't be made"
    "$python" -m venv "$room/venv" && "$room/venv/bin/pip" install -q --no-index "$room"/wheel/*.whl >&2 || fails "the wheel can't be installed"
    cd "$room/empty" && cp "$top/examples/laptop.rules" . && first_page >"$room/page" && [ -s "$room/page" ] || fails "the first page has no example"
    try "the wheel's gmus list" "$top/examples/first.report" "$room/venv/bin/gmus" list "$top/examples/first.gcnf"
    try "the wheel's gmus --version" "$room/version" "$room/venv/bin/gmus" --version
    try "the wheel's gmus-clash, by the first page" "$room/page" "$room/venv/bin/gmus-clash" laptop.rules --first 1
    echo 5 >"$room/five"
    try "the wheel's library" "$room/five" "$room/venv/bin/python" -c "import gmus_tools; print(len(gmus_tools.solve('laptop.rules').conflicts))"
}

case $#:$1 in
    *:--help) exec sed -n '/^#$/s/#//p;s/^# //p;/^top=/q' "$0" ;;
    *:-* | [2-9]*)
        echo "usage: dev/release.sh [FOLDER]" >&2
        exit 2
        ;;
esac
[ -f "$program" ] || fails "there is no program: call ./gmus, which builds it"
[ -n "$GMUS" ] || [ -z "$(newer_source)" ] || fails "a source is newer than the program: call ./gmus, which builds it"
[ -z "$(foreign_libraries)" ] || fails "the program needs more than the C library: $(foreign_libraries)"
version=$(sed -n 's/^## \([0-9][0-9.]*\), .*/\1/p' "$top/CHANGELOG.md" | head -n 1)
[ -n "$version" ] || fails "CHANGELOG.md has no version"
name=gmus-$version-$(uname -m)-linux
target=${1:-$top/out}
mkdir -p "$target" && target=$(CDPATH='' cd -- "$target" && pwd) || exit 1
room=$(mktemp -d) || exit 1
trap 'rm -rf "$room"' EXIT
fill "$room/$name" || fails "the archive's folder can't be filled"
day=$(git -C "$top" log -1 --format=%ct)
tar -C "$room" --sort=name --owner=0 --group=0 --numeric-owner --mtime="@$day" -cf - "$name" | gzip -n >"$room/archive" ||
    fails "the archive can't be written"
try_archive "$room/archive"
python=$(maker)
if [ -n "$python" ]; then
    try_wheel
    wheel=$(basename "$room"/wheel/*.whl)
    cp "$room/wheel/$wheel" "$target/$wheel" || fails "the wheel can't be written to $target"
else
    wheel=''
    echo "left out: the wheel, since no Python here has pip, setuptools and wheel"
fi
cp "$room/archive" "$target/$name.tar.gz" || fails "the archive can't be written to $target"
# shellcheck disable=SC2086  # there may be no wheel
(cd "$target" && sha256sum "$name.tar.gz" $wheel)
