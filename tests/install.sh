# A part of tests/run: installs the built library and the lister, uses what was installed, and takes it away again.

# A prefix with a blank and a # in it, from a folder that it is relative to, where an empty folder and a file were before.
installed="$build/to install"
name="some # prefix"

# What stands among the libraries and is none.
others=("$shared.0.folder" libresidues.sources)

install_there() {
    rm -rf "$installed"
    mkdir -p "$installed/$name/include" "$installed/$name/bin"
    echo kept > "$installed/$name/include/other.h"
    # An earlier version, and one of another name.
    mkdir -p "$installed/$name/lib/${others[0]}"
    touch "$installed/$name/lib/"{"$shared.0.earlier",libresidues.so.0,"${others[1]}"}
    (cd "$installed" && "$here/../install" --built "$lib/libresidues.a" "$lister" "$name" > "$build/printed")
    # Again, over itself.
    (cd "$installed" && "$here/../install" --built "$lib/libresidues.a" "$lister" "$name" > "$build/printed")
}

use_pkg_config() {
    local flags
    if ! command -v pkg-config > /dev/null; then
        echo "no pkg-config here: left out"
        return
    fi
    flags=$(PKG_CONFIG_PATH="$installed/$name/lib/pkgconfig" pkg-config --cflags --libs residues)
    eval "cc $flags \"\$here/../examples/apply.c\" -o \"\$build/apply-shared\"" || { echo "pkg-config says: $flags"; exit 1; }
    readelf -d "$build/apply-shared" | grep NEEDED | grep -F "[$shared]" > "$build/printed" ||
        { echo "the program does not ask for $shared"; exit 1; }
    owe_same "4 4 5" "$(LD_LIBRARY_PATH="$installed/$name/lib" "$build/apply-shared")"
}

use_python() {
    local prefix="$installed/$name" printed
    if ! command -v python3 > /dev/null; then
        echo "no python3 here: left out"
        return
    fi
    printed=$(env -u RESIDUES_LIBRARY -u PYTHONDONTWRITEBYTECODE PYTHONPATH="$prefix/share/residues/python" \
        python3 -c 'import residues; print(residues.apply(5, 2, 0, 0, [2, 3], [1, 1]), residues.__file__)')
    owe_same "[2, 3] $prefix/share/residues/python/residues.py" "$printed"
}

# Words that are none of install's, and files that are not there: nothing is made.
refuse_odd_words() {
    local status words
    for words in "--other" "--remove --other" "--built" "--built a b --other" "a b" "--remove a b" "--built $lib/libresidues.a none new"; do
        status=0
        # shellcheck disable=SC2086
        (cd "$installed" && "$here/../install" $words > "$build/printed" 2>&1) || status=$?
        [ $status -ne 0 ] || { echo "install takes '$words'"; exit 1; }
    done
    owe_same "" "$(ls -A "$installed")"
}

# A prefix whose folders above it do not stand either: they go again too.
install_deep() {
    (cd "$installed" && "$here/../install" --built "$lib/libresidues.a" "$lister" one/two/three > "$build/printed")
    [ -e "$installed/one/two/three/lib/libresidues.a" ] || { echo "not installed in one/two/three"; exit 1; }
    (cd "$installed" && "$here/../install" --remove one/two/three)
    owe_same "" "$(ls -A "$installed")"
}

echo "== installing, in a folder with a blank in its name"
lister=$(cd "$(dirname "$3")" && pwd)/$(basename "$3")
rm -rf "$installed"
mkdir -p "$installed"
refuse_odd_words
install_deep
install_there
owe_same "$(printf '%s\n' libresidues.a libresidues.so libresidues.so.0 "$shared" "libresidues.so.$version" "${others[@]}" pkgconfig | sort)" \
    "$(ls "$installed/$name/lib" | sort)"
owe_same "$version" "$(sed -n 's/^Version: //p' "$installed/$name/lib/pkgconfig/residues.pc")"
owe_same "$shared" "$(by_shared "$installed/$name/lib/libresidues.so")"
owe_version "$version" "$installed/$name/include" "$installed/$name/share/residues/python" "$installed/$name"/share/man/man*/*
use_pkg_config
use_python
for page in man1/residues-lister.1 man3/residues.3; do
    cmp "$here/../docs/man/${page#*/}" "$installed/$name/share/man/$page"
done
"${within[@]}" "$installed/$name/bin/residues-lister" < "$here/../examples/M.rows" > "$build/printed"
owe_same regular "$(tail -n 1 "$build/printed")"
(cd "$installed" && "$here/../install" --remove "$name")
owe_same "$(printf '%s\n' . "./$name" "./$name"/{bin,include,include/other.h,lib} "${others[@]/#/./$name/lib/}" | sort)" \
    "$(cd "$installed" && find . | sort)"
echo "installed, used, and taken away"
