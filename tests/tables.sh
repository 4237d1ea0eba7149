# A part of tests/run: the library's answers on tables as printed, judged by a program that shares nothing with the library.
# What it must find wrong is tried too: answers from tables that are misread on purpose, and answers with a fault planted.

tables="$here/tables"
answers="$build/answers"
dense_check="$build/dense_check"

# Answers a question and judges the answer: judge OPTION CALL FILES..; OPTION is - for a table read as it is. A table that the
# library writes is judged twice, as print and as bytes.
judge() {
    local option=$1 call=$2 misreading=() written=()
    shift 2
    [ "$option" = - ] || misreading=("$option")
    case $call in product | inverse) written=("$build/answer.rows") ;; esac
    rm -f "$build/answer.rows"
    "${within[@]}" "$answers" "${misreading[@]}" "$call" "$@" "${written[@]}" > "$build/answer" || return 3
    "${within[@]}" "$dense_check" "$call" "$@" "$build/answer" || return
    [ ! -e "$build/answer.rows" ] || "${within[@]}" "$dense_check" "$call" "$@" "$build/answer.rows"
}

# The answer is wrong and dense_check says so: status 1 and no other.
owe_wrong() {
    local status=0
    "$@" > "$build/said" || status=$?
    if [ $status -ne 1 ] || ! grep -q '^wrong: ' "$build/said"; then
        echo "not found wrong (status $status): $*"
        exit 1
    fi
    found=$((found + 1))
}

# The same where the misread table passes the library and the check that applies it.
owe_wrong_unnoticed() {
    owe_wrong "$@"
    if grep -q refused "$build/answer"; then
        echo "refused, where the misreading should pass unnoticed: $*"
        exit 1
    fi
}

# The questions that each table and pair of tables is put to.
every_question() {
    local name pair
    for name in M spline two two_right house house_right many many_right one; do
        "$@" matrix "$tables/$name.txt"
        "$@" solution "$tables/$name.txt" "$tables/$name.column"
        "$@" dense "$tables/$name.txt" "$tables/$name.column"
        "$@" inverse "$tables/$name.txt"
    done
    for pair in "M M" "spline spline" "two two_right" "house house_right" "many many_right" "one one"; do
        "$@" product "$tables/${pair% *}.txt" "$tables/${pair#* }.txt"
    done
}

# The column of each table that has a zero pivot, and the refusal of each that has none.
every_kernel() {
    local name
    for name in M_zero spline_zero many_zero two_right; do
        "$@" kernel "$tables/$name.txt"
    done
}

every_regular() {
    local name
    for name in M spline house many one; do
        "$@" kernel "$tables/$name.txt"
    done
}

owe_right() {
    judge - "$@" || { echo "found wrong: $*"; exit 1; }
    right=$((right + 1))
}

# A table of one row has no other to be taken for it, and two_right is singular however it is read.
owe_misreadings_wrong() {
    [ "$(basename "$2" .txt)" != one ] || return 0
    [ "$1 $(basename "$2" .txt)" != "dense two_right" ] || return 0
    owe_wrong judge --heading "$@"
    owe_wrong judge --file-order "$@"
}

# The misreadings of tables whose idle words are residues, so that nothing is refused: each solution passes its own check.
owe_unnoticed_misreadings_wrong() {
    local name option
    for name in spline many many_right; do
        for option in --heading --file-order; do
            owe_wrong_unnoticed judge "$option" matrix "$tables/$name.txt"
            owe_wrong_unnoticed judge "$option" solution "$tables/$name.txt" "$tables/$name.column"
            owe_wrong_unnoticed judge "$option" dense "$tables/$name.txt" "$tables/$name.column"
            owe_wrong_unnoticed judge "$option" inverse "$tables/$name.txt"
        done
    done
}

# Finds the answer wrong that standard input has: owe_planted_wrong CALL FILES.., the right one being known.
owe_planted_wrong() {
    cat > "$build/answer"
    owe_wrong "$dense_check" "$@" "$build/answer"
}

# Faults planted in right answers: a word off by one, the same residue by a larger word, too few words, too many, a refusal where
# none is due, the wrong row beside one, none where one is due (also where the matrix has an inverse), factors exchanged, other orders.
plant_faults() {
    local m="$tables/M.txt" singular="$tables/two_right.txt" answer
    for answer in "1 2 4" "8 2 3" "1 2" "1 2 3 0" "refused 7 1 3"; do
        owe_planted_wrong solution "$m" "$tables/M.column" <<< "$answer"
    done
    for answer in "1 2 4" "8 2 3" "refused 7 1 0"; do
        owe_planted_wrong dense "$m" "$tables/M.column" <<< "$answer"
    done
    for answer in "refused 7 1 2" "$(tr '\n' ' ' < "$tables/two_right.column")"; do
        owe_planted_wrong dense "$singular" "$tables/two_right.column" <<< "$answer"
    done
    owe_planted_wrong inverse "$singular" <<< "refused 7 1 1"
    owe_planted_wrong inverse "$singular" < "$singular"
    echo "7 2 1 1 1; 2 0 0 0 1 1 0 0; 0 0 1 0 0 0 0 1" > "$build/exchange"
    owe_planted_wrong inverse "$build/exchange" < "$build/exchange"
    echo "3 5" > "$build/exchange.column"
    judge - dense "$build/exchange" "$build/exchange.column"
    owe_planted_wrong dense "$build/exchange" "$build/exchange.column" <<< "refused 7 1 0"
    owe_planted_wrong dense "$build/exchange" "$build/exchange.column" <<< "3 5"
    judge - product "$tables/many.txt" "$tables/many_right.txt"
    owe_wrong "$dense_check" product "$tables/many_right.txt" "$tables/many.txt" "$build/answer"
    owe_planted_wrong product "$tables/one.txt" "$tables/one.txt" <<< "5 1 0 0 1; 0 4"
    plant_in_kernels
    plant_in_words
}

# A word off by one, the same residue by a larger word, a multiple, too few words, too many, a refusal where none is due, by two
# numbers, the column of a later corner; and a column, another number or a place where 13 is due.
plant_in_kernels() {
    local answer
    for answer in "0 3 1" "0 9 1" "0 4 2" "2 1" "0 2 1 0" "refused 13 0 0" "refused 7 1 3"; do
        owe_planted_wrong kernel "$tables/M_zero.txt" <<< "$answer"
    done
    for answer in "0 2 1" "refused 7 1 3" "refused 13 1 0" "refused 13 0 3"; do
        owe_planted_wrong kernel "$tables/M.txt" <<< "$answer"
    done
    echo "5 3 0 0 1; 2 2; 3 0; 0 0" > "$build/zeros"
    judge - kernel "$build/zeros"
    owe_planted_wrong kernel "$build/zeros" <<< "0 0 1"
}

# In the scope paper's inverse of M: each idle word made 1, and a d of 3 made 10, which is the same modulo 7.
plant_in_words() {
    local words place
    read -r -d '' -a words < "$tables/M.inverse" || true
    for place in 7 8 11 12 24 25 26 27; do
        (words[place]=1 && echo "${words[@]}") > "$build/planted"
        owe_planted_wrong inverse "$tables/M.txt" < "$build/planted"
        grep -q "an idle word" "$build/said" || { echo "word $place is taken for one that is used"; exit 1; }
    done
    (words[6]=10 && echo "${words[@]}") > "$build/planted"
    owe_planted_wrong inverse "$tables/M.txt" < "$build/planted"
}

# The example with files on a table of unequal orders: transposed twice it is what it was, and its inverse is one.
check_files_example() {
    judge - inverse "$tables/many.txt"
    "${within[@]}" "$build/files" "$build/transposed" "$build/inverse" "$build/answer.rows" > "$build/printed"
    "$dense_check" inverse "$build/answer.rows" "$build/inverse"
    "${within[@]}" "$build/files" "$build/again" "$build/inverse" "$build/transposed" > "$build/printed"
    cmp "$build/answer.rows" "$build/again"
}

echo "== tables as printed: the library's answers, judged densely"
"${c99[@]}" "$here/c/answers.c" "$lib/libresidues.a" -o "$build/answers"
gcc -std=c99 -O1 -g "${warnings[@]}" "$here/c/dense_check.c" -o "$build/dense_check"
right=0
every_question owe_right
every_kernel owe_right
every_regular owe_right
"$dense_check" inverse "$here/../examples/M.rows" "$tables/M.inverse"
found=0
every_question owe_misreadings_wrong
every_kernel owe_misreadings_wrong
owe_unnoticed_misreadings_wrong
plant_faults
check_files_example
echo "$right right answers; $found wrong ones, each found wrong"
