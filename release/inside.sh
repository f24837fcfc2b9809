#!/usr/bin/env bash
# Runs in the clean root of test.sh: installs one package by the lines of README.md, and tries it.
#
#     bash inside.sh NAME VERSION MACHINE    # NAME is tarball, deb or wheel; /given has the packages, the tests and install.NAME
#
# MACHINE is the processor of the package. Where it is another one than that of this machine, the kernel has an emulator run the program.
set -uo pipefail
NAME=$1 VERSION=$2 MACHINE=$3
export HOME=/root LC_ALL=C.UTF-8 DEBIAN_FRONTEND=noninteractive
PASSED=0 FAILED=0 SKIPPED=0

# Counts a case: its name, and the command that has to succeed.
try() {
    local name=$1 said
    shift
    if said=$("$@" 2>&1); then PASSED=$((PASSED + 1)); else FAILED=$((FAILED + 1)); echo "$NAME: $name: $said"; fi
}

mkdir /root/here && cd /root/here && cp /given/packages/* . || exit 1
# The lines of README.md, in this shell: what they set has to last. They end in the folder with the pages and the examples.
IS_INSTALLED=''
exec 3>&1
trap '[ -n "$IS_INSTALLED" ] || { cat /tmp/install.log; echo "$NAME: not installed"; echo "0 passed, 1 failed"; } >&3' EXIT
set -e
IS_FOREIGN='' CC=cc
if [ "$MACHINE" != "$(uname -m)" ]; then IS_FOREIGN=yes CC=$MACHINE-linux-gnu-gcc; fi
# pip installs a wheel for another machine in a folder of its own alone, and with its word that it fits.
if [ -n "$IS_FOREIGN" ] && [ "$NAME" = wheel ]; then
    cat > /given/install.wheel <<'END'
python3 -m venv tools
PLATFORM=$(ls *.whl | sed 's/.*-\(manylinux_.*\)\.whl/\1/')
tools/bin/pip install --no-deps --only-binary=:all: --platform "$PLATFORM" --target judge ./causal_judge-*.whl
export PATH="$PWD/judge/bin:$PATH" PYTHONPATH="$PWD/judge" MANPATH="$PWD/judge/share/man:"
cd judge/share/doc/causal-judge
END
fi
# shellcheck source=/dev/null
. "/given/install.$NAME" > /tmp/install.log 2>&1
set +e
IS_INSTALLED=yes
DOC=$PWD
cd /root/here || exit 1

case $NAME in
    tarball) BASE=$(echo /root/here/causal_judge-*-linux) ;;
    deb) BASE=/usr ;;
    wheel) BASE=/root/here/judge ;;
esac
LIB=$BASE/lib
[ "$NAME" != deb ] || LIB=/usr/lib/$MACHINE-linux-gnu
export PKG_CONFIG_PATH=$LIB/pkgconfig

no_kit() { ! command -v rt && [ ! -e /opt/rattle ]; }
found() { [ "$(realpath "$(command -v causal_judge)")" = "$(realpath "$BASE/bin/causal_judge")" ]; }
says_version() { [ "$(causal_judge --version | sed -n 1p | cut -d ' ' -f 2)" = "$VERSION" ]; }
says_build() { grep "^version $VERSION$" "$DOC/BUILD" && grep '^gate ' "$DOC/BUILD"; }
# A page of the manual, as a reader gets it.
has_page() { man "$1" | col -bx | tr -s ' \n' ' ' | grep -F -- "$2"; }

completes() {
    bash --norc -c '
        if [ "$1" = deb ]; then . /usr/share/bash-completion/bash_completion; _completion_loader causal_judge
        else . "$2/share/bash-completion/completions/causal_judge"; fi
        COMP_WORDS=(causal_judge drive --se) COMP_CWORD=2 && _causal_judge && [ "${COMPREPLY[*]}" = --seals ]
        COMP_WORDS=(causal_judge ju) COMP_CWORD=1 && _causal_judge && [ "${COMPREPLY[*]}" = judge ]' - "$NAME" "$BASE"
}

# Each example, by each command, as the program answers it.
compared() {
    local command words file
    for file in "$DOC"/examples/*.json; do
        for command in judge check explain refute; do
            words=$command
            [ "$command" != explain ] || words="explain --json"
            # shellcheck disable=SC2086
            causal_judge $words < "$file" > due 2>&1
            local status=$?
            "$@" "$command" < "$file" > got 2>&1
            [ $? = $status ] && cmp -s due got || { echo "$command < $file"; return 1; }
        done
    done
}

c_sample() {
    # shellcheck disable=SC2046
    $CC -O2 "$DOC/embed/judge.c" $(pkg-config --cflags --libs causal_judge) -o judge_c && compared ./judge_c
}

python_sample() {
    CAUSAL_JUDGE_LIBRARY=$(pkg-config --variable=shared causal_judge)
    export CAUSAL_JUDGE_LIBRARY
    compared python3 "$DOC/embed/causal_judge.py"
}

# The package, as the wheel or the Debian package installs it, or as the pages of the tarball have it: it finds the program, and writes and
# judges a log.
python_package() {
    [ "$NAME" != tarball ] || export PYTHONPATH="$DOC/python"
    python3 - <<'END'
from causal_judge import Recorder, assert_met

with Recorder("package.jsonl") as recorder, recorder.client("alice") as alice:
    value = alice.new_value()
    alice.write("key", value, lambda: None)
    alice.read("key", lambda: value)
assert_met("package.jsonl")
END
}

# The package is where Debian's Python finds it, and so does pytest its plugin.
debian_python() {
    (cd / && /usr/bin/python3) <<'END'
import importlib.metadata
import causal_judge

assert causal_judge.__file__ == "/usr/lib/python3/dist-packages/causal_judge/__init__.py", causal_judge.__file__
(plugin,) = [found for found in importlib.metadata.entry_points(group="pytest11") if found.name == "causal_judge"]
assert plugin.value == "causal_judge.pytest_plugin", plugin
END
}

# What Python compiled of the package is removed with it.
is_removed() { dpkg --remove causal-judge && ! compgen -G "/usr/lib/python3/dist-packages/causal_judge*" && [ ! -e /usr/bin/causal_judge ]; }

go_sample() {
    cp "$DOC/embed/judge.go" . && go build -tags installed -o judge_go judge.go && compared ./judge_go
}

rust_sample() {
    rustc --edition 2024 -O -L "$(pkg-config --variable=libdir causal_judge)" "$DOC/embed/judge.rs" -o judge_rs && compared ./judge_rs
}

# Whether rustc is there and knows the edition of the sample.
has_rust() { echo | rustc --edition 2024 --crate-type lib --crate-name empty -o /tmp/libempty.rlib -; }

# Counts the sample of a language: what tells whether its compiler is here, and the command that builds and compares it.
try_if() {
    local name=$1 present=$2
    shift 2
    if $present > /dev/null 2>&1; then try "$name" "$@"; else SKIPPED=$((SKIPPED + 1)); echo "$NAME: $name: skipped, no compiler for it here"; fi
}

try "no kit" no_kit
try "the program is found" found
try "its version" says_version
try "its BUILD" says_build
try "the Python package" python_package
[ "$NAME" != deb ] || try "the Python package of Debian's Python" debian_python
try "man causal_judge" has_page causal_judge "Judges a recorded history"
try "man causal_judge-judge" has_page causal_judge-judge "Judges a history in each line"
try "its statuses" has_page causal_judge-judge "Status: 0 answered, whatever the verdict"
if [ "$NAME" = wheel ]; then
    SKIPPED=$((SKIPPED + 5))
else
    try "completion in bash" completes
    if [ -f "$LIB/libcausal_judge.a" ]; then
        try "the C sample" c_sample
        if [ -n "$IS_FOREIGN" ]; then
            SKIPPED=$((SKIPPED + 3))
        else
            try "the Python sample" python_sample
            try_if "the Go sample" "go version" go_sample
            try_if "the Rust sample" has_rust rust_sample
        fi
    else
        SKIPPED=$((SKIPPED + 4))
    fi
fi
SAID=$(python3 /given/tests/process/documents.py --root "$DOC" --page README.md -- "$(command -v causal_judge)" 2>&1)
read -r PAGES_PASSED PAGES_FAILED < <(echo "$SAID" | tail -1 | sed -n 's/^\([0-9]*\) passed, \([0-9]*\) failed.*/\1 \2/p')
[ "${PAGES_PASSED:-0}" != 0 ] && [ "${PAGES_FAILED:-1}" = 0 ] || echo "$SAID"
echo "$NAME: $PAGES_PASSED commands of README.md as it shows them"
PASSED=$((PASSED + ${PAGES_PASSED:-0})) FAILED=$((FAILED + ${PAGES_FAILED:-1}))
[ "$NAME" != deb ] || try "nothing is left of a package that is removed" is_removed
echo "$PASSED passed, $FAILED failed$([ $SKIPPED = 0 ] || echo ", $SKIPPED skipped")"
