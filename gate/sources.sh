# To be sourced: says whether the programs in bin/ were built of these sources.

# Prints a sum of all that the programs are made from.
sum_of_sources() {
    { rt version
      cat crates.txt
      find crates -name out -prune -o -type f \( -name '*.rt' -o -name '*.antt' \) -print0 | LC_ALL=C sort -z | xargs -0 sha256sum
    } | sha256sum
}

# Whether bin/ holds the programs that these sources give.
is_built() {
    [ -f bin/sources ] && [ "$(sum_of_sources)" = "$(cat bin/sources)" ]
}

# Prints the path of a program: the proved one where bin/ has it of these sources, else one that is built without any proof. Fails where
# that isn't built.
program_of() {
    if is_built; then
        echo "$PWD/bin/$1"
        return
    fi
    echo "$1 runs unproved here, and is built for that in a minute or two the first time; ./build.sh proves it" >&2
    gate/unproved.py "$1" >&2 || return
    echo "$PWD/bin/unproved/$1"
}
