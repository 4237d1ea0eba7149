# A part of tests/run: the examples in C and in Python, whose output is compared with examples/expected, and the tests of the
# Python module.

examples="$here/../examples"

# Compares what a command prints, on both outputs, with the file of that name: owe_printed NAME STATUS COMMAND..
owe_printed() {
    local name=$1 owed=$2 status=0
    shift 2
    "$@" > "$build/printed" 2>&1 || status=$?
    [ $status -eq "$owed" ] || { echo "$name ended with $status, not $owed"; cat "$build/printed"; exit 1; }
    diff "$examples/expected/$name" "$build/printed" || { echo "not what examples/expected/$name has"; exit 1; }
    echo "$name prints what it should"
}

# Compiles with the words given and runs.
run_c_examples() {
    local program
    for program in apply spline ladder beam identities files; do
        "${c99[@]}" "$@" "$examples/$program.c" "$lib/libresidues.a" -o "$build/$program"
    done
    owe_printed apply 0 "${within[@]}" "$build/apply"
    owe_printed spline 0 "${within[@]}" "$build/spline"
    owe_printed ladder 0 "${within[@]}" "$build/ladder"
    owe_printed beam 0 "${within[@]}" "$build/beam"
    owe_printed identities 0 "${within[@]}" "$build/identities"
    files=("${within[@]}" "$build/files" "$build/transposed" "$build/inverse")
    owe_printed files 0 "${files[@]}" "$examples/M.rows"
    owe_printed files-written 0 od -A n -v -t u4 --endian=little "$build/transposed" "$build/inverse"
    owe_printed files-inverse 0 "${files[@]}" < "$build/inverse"
    owe_printed files-refused 0 refused_files
    owe_printed files-unreadable 1 "${files[@]}" /
    owe_printed files-unwritable 1 unwritable_files
}

# The example where what it prints cannot be written.
unwritable_files() {
    "${files[@]}" "$examples/M.rows" > /dev/full
}

# File M with one byte changed: changed PLACE BYTE
changed() {
    head -c "$1" "$examples/M.rows"
    printf '%b' "\\x$2"
    tail -c +$(($1 + 2)) "$examples/M.rows"
}

try_files() {
    "${files[@]}" || echo "ended with $?"
}

# What the example says of files that are no row files or have no inverse: a chain that leads astray, another prime, a d of 0, a
# word that is 7 modulo 7, a file that is cut, none.
refused_files() {
    changed 16 4 | try_files
    changed 0 9 | try_files
    changed 56 0 | try_files
    changed 56 7 | try_files
    head -c 100 "$examples/M.rows" | try_files
    try_files < /dev/null
}

run_python() {
    local solve=(python3 "$examples/solve.py" "$examples/M.rows")
    export PYTHONPATH="$here/../python" PYTHONDONTWRITEBYTECODE=1 RESIDUES_LIBRARY="$build/libresidues.so"
    owe_printed solve 0 "${within[@]}" "${solve[@]}" 4 4 5
    owe_printed solve-refused 1 "${within[@]}" "${solve[@]}" 4 7 5
    owe_printed solve-surplus 1 "${within[@]}" "${solve[@]}" 4 4 5 6
    owe_printed solve-no-number 1 "${within[@]}" "${solve[@]}" 4 4 x
    owe_printed solve-no-file 1 "${within[@]}" python3 "$examples/solve.py" no-such-file 4
    owe_printed exact 0 "${within[@]}" python3 "$examples/exact.py"
    owe_printed slopes 0 "${within[@]}" python3 "$examples/slopes.py"
    owe_printed weighings 0 "${within[@]}" python3 "$examples/weighings.py"
    "${within[@]}" python3 "$here/python/test_residues.py"
}
