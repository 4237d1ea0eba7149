# A part of tests/run: the file VERSION, and every place that tells the version. install.sh asks the same of what is installed.

tree="$here/.."
version=$(cat "$tree/VERSION")
shared=libresidues.so.${version%%.*}

# What a C program sees, as a text and as numbers: by_header FOLDER
by_header() {
    gcc -std=c99 "${warnings[@]}" -I "$1" "$here/c/version.c" -o "$build/version"
    "$build/version"
}

# What a man page has at its foot: by_page FILE
by_page() {
    sed -n 's/^\.TH .* "residues \([^"]*\)".*/\1/p' "$1"
}

# What a Python program sees: by_python FOLDER
by_python() {
    PYTHONPATH=$1 PYTHONDONTWRITEBYTECODE=1 python3 -c 'import residues; print(residues.__version__)'
}

# The name that programs linked with a shared library ask for: by_shared FILE
by_shared() {
    readelf -d "$1" | sed -n 's/.*SONAME.*\[\(.*\)\]/\1/p'
}

# The version that is told: owe_version VERSION FOLDER-OF-HEADER FOLDER-OF-MODULE PAGE..
owe_version() {
    local owed=$1 page
    owe_same "$owed $owed" "$(by_header "$2")"
    ! command -v python3 > /dev/null || owe_same "$owed" "$(by_python "$3")"
    shift 3
    for page in "$@"; do owe_same "$owed" "$(by_page "$page")"; done
}

# In a copy, set-version puts another version in all these places. It refuses what is no version, and changes nothing then.
set_another() {
    local copy="$build/another version" word
    rm -rf "$copy"
    mkdir -p "$copy/docs"
    cp -r "$tree/set-version" "$tree/VERSION" "$tree/include" "$tree/python" "$copy"
    cp -r "$tree/docs/man" "$copy/docs"
    "$copy/set-version" 12.345.6
    owe_same 12.345.6 "$(cat "$copy/VERSION")"
    owe_version 12.345.6 "$copy/include" "$copy/python" "$copy"/docs/man/*
    for word in 12.345 12.345.06 v1.0.0 1.0.0-1 "1.0.0 2"; do
        ! "$copy/set-version" "$word" 2> "$build/printed" || { echo "set-version takes $word"; exit 1; }
    done
    ! "$copy/set-version" 1.0.0 1.0.0 2> "$build/printed" || { echo "set-version takes two words"; exit 1; }
    owe_same 12.345.6 "$(cat "$copy/VERSION")"
}

# Each note on a request names a version of the changelog, and the index of notes the same.
check_notes() {
    local note name told
    for note in "$tree"/docs/changes/M-*.md; do
        name=$(basename "$note" .md)
        told=$(sed -n 's/^Version \([0-9.]*[0-9]\).*/\1/p' "$note")
        grep -qF "## $told," "$tree/CHANGELOG.md" || { echo "$name tells version '$told', which CHANGELOG.md has not"; exit 1; }
        grep -F "| [$name]($name.md) " "$tree/docs/changes/README.md" | grep -qF "| $told |" ||
            { echo "no row for $name with $told in docs/changes/README.md"; exit 1; }
    done
}

echo "== the version, where it is told"
# The Python tests use this shared library too.
"$tree/link-shared" "$lib/libresidues.a" "$build/libresidues.so"
owe_same "$shared" "$(by_shared "$build/libresidues.so")"
owe_version "$version" "$tree/include" "$tree/python" "$tree"/docs/man/*
owe_same "## $version" "$(grep '^## ' "$tree/CHANGELOG.md" | head -n 1 | cut -d , -f 1)"
set_another
check_notes
echo "$version everywhere"
