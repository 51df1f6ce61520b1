# What the scripts of this repository share of the machine: that proved programs run on it, and Debian's packages. Sourced; by
# itself it prints nothing and installs nothing.

# Says whether proved programs run here: they are programs for x86-64 Linux, as any other, and nothing runs them elsewhere.
runs_proved() { # CALLER
    [ "$(uname -sm)" = 'Linux x86_64' ] || { echo "$1: the proved programs and the library are for x86-64 Linux, and this is $(uname -sm)" >&2; return 1; }
}

# Runs a test, installing Debian's packages first where it fails; succeeds where the test does in the end.
need() { # PACKAGES TEST..: the packages' names are one word, parted by blanks
    local packages=$1 as_root=''
    shift
    "$@" >/dev/null 2>&1 && return
    command -v apt-get >/dev/null || return 1
    [ "$(id -u)" = 0 ] || as_root='sudo -n'
    echo "installing Debian's $packages" >&2
    # shellcheck disable=SC2086
    { $as_root apt-get update -qq -o Acquire::Retries=3 && $as_root apt-get install -y -qq -o Acquire::Retries=3 --no-install-recommends $packages; } >/dev/null 2>&1 || return 1
    "$@" >/dev/null 2>&1
}
