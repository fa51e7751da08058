# What bin/mntgate, bin/prove, bin/install-c and .ci/build-archive share. Whoever sources this has
# set $root, the repository's top.

# Prints the libraries that this crate's line of crates.txt names.
libraries_of() {
    sed -nE "s/#.*//; s/^$1( [^:]*)?: *//p" "$root/crates.txt"
}

# Prints the names of the crates that this crate stands on, and its own, by the lines 'NAME HOW..:
# LIBRARY..' of crates.txt. A library that has no line there is the kit's.
crates_below() {
    awk -v top="$1" '
        function reach(name,   parts, count, at) {
            if (!(name in uses) || name in reached) return
            reached[name]
            count = split(uses[name], parts, " ")
            for (at = 1; at <= count; at++) reach(parts[at])
            print name
        }
        { sub(/#.*/, "") }
        /:/ { name = $1; sub(/:.*/, "", name); sub(/[^:]*:/, ""); uses[name] = $0 }
        END { reach(top) }' "$root/crates.txt"
}

# Reads names of crates, each after those that it stands on. Prints them by the longest chain of
# crates above each, in lines of code: the longest first.
by_chain() {
    local below at crate library own
    local -A lines=()
    mapfile -t below
    for ((at = ${#below[@]} - 1; at >= 0; at--)); do
        crate=${below[at]}
        own=$(find "$root/crates/$crate/src" -name '*.rt' -exec cat {} + | wc -l)
        lines[$crate]=$((${lines[$crate]-0} + own))
        for library in $(libraries_of "$crate"); do
            [[ ${lines[$library]-0} -ge ${lines[$crate]} ]] || lines[$library]=${lines[$crate]}
        done
    done
    for crate in "${below[@]}"; do
        printf '%s %s\n' "${lines[$crate]}" "$crate"
    done | sort -k 1,1nr -s | cut -d ' ' -f 2
}

# Whether this file, a program or a library, is built, and no source of this crate or of those below
# it is newer. A file that was taken away makes its folder newer.
is_current() {
    local crate
    local sources=("$root/crates.txt")
    [[ -f $1 ]] || return
    for crate in $(crates_below "$2"); do
        sources+=("$root/crates/$crate"/{src,specs,proofs})
    done
    [[ -z $(find "${sources[@]}" -newer "$1" -print -quit 2>/dev/null) ]]
}

# Prints what the kit's `rattle build` is told of this crate, a word on each line: the libraries are
# those that stand proved below $2.
words_over() {
    local kit library
    kit=$(dirname "$(rt doc)")
    printf '%s\n' --crate-name "$1" --antt-project "$kit/rattle/logic/antt-project.json" \
        --logic-built "$kit/logic_built" --toolchain "$kit/toolchain"
    # Those that its line names, and where those are found that they stand on.
    for library in std $(libraries_of "$1"); do
        if [[ -d $2/crates/$library ]]; then
            printf '%s\n' --extern "$library=$2/crates/$library/out/rlib/$library.rlib"
        else
            printf '%s\n' --extern "$library=$kit/rlibs/$library.rlib"
        fi
    done
    printf '%s\n' -L "dependency=$kit/rlibs"
    for library in $(crates_below "$1"); do
        [[ $library == "$1" ]] || printf '%s\n' -L "dependency=$2/crates/$library/out/rlib"
    done
}

# Builds the static library of mntgate_c over the libraries below it that stand here proved.
# crates.txt lists that crate as a library, so the kit's compiler is told here what it is to build,
# and proves the crate once more for it. Further words are handed on to the compiler.
build_archive() {
    local words
    mapfile -t words < <(words_over mntgate_c "$root")
    cd "$root/crates/mntgate_c"
    mkdir -p out
    # The few lines of C that give it the program's malloc lie beside it, so that whoever links it
    # needs no kit.
    cp "$(dirname "$(rt doc)")/c/liblibc_c.a" out/heap.a
    "$(dirname "$(rt doc)")/bin/rattle" build src/lib.rt --crate-type staticlib "${words[@]}" "$@" \
        --backend llvm -o out/libmntgate_c.a
}
