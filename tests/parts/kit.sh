# The proved programs. Sourced by tests/run; uses root.

# Prints the path of the proved program NAME, and nothing where it has not been built.
proved_program() { # NAME
    [ ! -f "$root/target/bin/$1" ] || printf '%s\n' "$root/target/bin/$1"
}
