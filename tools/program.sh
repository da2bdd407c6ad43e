# What the program sdfg is made of, and the copy of it in release/ (release/README.md). To be sourced at the top of the repository.

program=crates/sdfg/out/sdfg
release=release/sdfg.xz

# Puts into `order` the crate and the repository's libraries below it, the lowest first, into `uses` what each one uses, and into
# `rows` its whole line of crates.txt, which may have options.
order_of() {
    declare -gA uses=() rows=() reached=()
    declare -ga order=()
    local head libraries name
    while IFS=: read -r head libraries; do
        read -r name _ <<<"$head"
        [[ $name ]] && rows[$name]=$head:$libraries && uses[$name]=${libraries//,/ }
    done < <(sed 's/#.*//' crates.txt)
    visit "$1"
}

visit() {
    local it
    reached[$1]=yes
    for it in ${uses[$1]-}; do
        [[ -v uses[$it] && ! -v reached[$it] ]] && visit "$it"
    done
    order+=("$1")
}

# Puts into `folders` those of these kinds (src, specs, proofs) of the program's crates, be they there or not.
folders_of() {
    local name kind
    order_of sdfg
    folders=()
    for name in "${order[@]}"; do
        for kind; do
            folders+=("crates/$name/$kind")
        done
    done
}

# Prints the sum of all files that the program is proved and built from.
sources() (
    folders_of src specs proofs
    {
        for name in "${order[@]}"; do
            echo "${rows[$name]-$name}"
        done
        sha256sum HANDLES
        find "${folders[@]}" -type f -print0 2>/dev/null | LC_ALL=C sort -z | xargs -0 sha256sum
    } | bytes_sum
)

# Prints the sum of the bytes of the input.
bytes_sum() {
    sha256sum | cut -d ' ' -f 1
}

# Whether this is the sum of the present sources.
is_sum() {
    [[ $1 && $(sources) == "$1" ]]
}

# Whether the program is there, and no file of the sources has changed since it was made. Not every find can tell.
is_newest() (
    folders_of src specs proofs
    [[ -x $program && $(find --version 2>/dev/null) == *GNU* && ! $(find "${folders[@]}" crates.txt HANDLES -cnewer "$program" -print -quit 2>/dev/null) ]]
)

# Prints a line of release/sources: 1 has a sum that binds the rest, 2 the sum of the program's bytes, 3 the kit that built it.
told() {
    sed -n "$1p" release/sources 2>/dev/null
}

# Prints the sum of a program of the present sources with this sum of its bytes, built by this kit.
bound() {
    { sources && echo "$1" && echo "$2"; } | bytes_sum
}

# Whether release/ has the program of these very sources.
is_released() {
    [[ -f $release && $(told 3) && $(told 1) == "$(bound "$(told 2)" "$(told 3)")" ]]
}

# Prints the program in release/; a Python does it where there is no xz.
unpack() {
    if command -v xz >/dev/null; then
        xz -dc "$release"
    else
        python3 -c 'import lzma, shutil, sys; shutil.copyfileobj(lzma.open(sys.argv[1]), sys.stdout.buffer)' "$release"
    fi
}

# Whether a program starts on this machine: without words its status is 2.
starts() {
    "$1" </dev/null &>/dev/null
    (($? == 2))
}

# Where a program was proved and built here, the sum of its sources and that of its bytes.
proved=$program.proved

# Keeps that the program was proved and built of the sources with this sum, which it was made from.
keep_proved() {
    { echo "$1" && bytes_sum <"$program"; } >"$proved"
}

# Whether the program is one that was kept so, and of the present sources.
is_proved() {
    [[ -f $proved && $(<"$proved") == "$(sources && bytes_sum <"$program")" ]]
}

# Whether rt can have built the program: where release/ has that of these sources and this kit, it is that one.
is_of_kit() {
    command -v rt >/dev/null && { ! is_released || [[ $(rt version) != "$(told 3)" || $(bytes_sum <"$program") == "$(told 2)" ]]; }
}
