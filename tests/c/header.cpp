// The header in C++, included twice: every call compiles and links.
#include "residues.h"
#include "residues.h"

// -1/2 and 3/4 under 5 and 7, whose bound is 4, and a refusal by each new name.
static bool fractions_are_right()
{
    const uint32_t first[] = {2, 2}, second[] = {3, 6}, five_under_5[] = {0}, five_under_7[] = {5};
    int32_t numerators[2];
    uint32_t denominators[2];
    const uint64_t found = residues_fractions(5, 7, 2, first, 2, second, 2, numerators, 2, denominators, 2);
    const uint64_t equal = residues_fractions(5, 5, 2, nullptr, 0, nullptr, 0, nullptr, 0, nullptr, 0);
    const uint64_t none = residues_fractions(5, 7, 1, five_under_5, 1, five_under_7, 1, numerators, 2, denominators, 2);
    const uint64_t short_first = residues_fractions(5, 7, 2, first, 1, second, 1, numerators, 1, denominators, 1);
    const uint64_t short_second = residues_fractions(5, 7, 2, first, 2, second, 1, numerators, 1, denominators, 1);
    const uint64_t short_numerators = residues_fractions(5, 7, 2, first, 2, second, 2, numerators, 1, denominators, 1);
    const uint64_t short_denominators = residues_fractions(5, 7, 2, first, 2, second, 2, numerators, 2, denominators, 1);
    const bool is_found = residues_number(found) == RESIDUES_OK && numerators[0] == -1 && denominators[0] == 2 &&
                          numerators[1] == 3 && denominators[1] == 4;
    const bool is_refused = residues_number(equal) == RESIDUES_EQUAL_PRIMES && residues_number(none) == RESIDUES_NO_FRACTION &&
                            residues_buffer(none) == RESIDUES_NO_BUFFER && residues_row(none) == 1;
    return is_found && is_refused && residues_buffer(short_first) == RESIDUES_FIRST_RESIDUES &&
           residues_buffer(short_second) == RESIDUES_SECOND_RESIDUES && residues_buffer(short_numerators) == RESIDUES_NUMERATORS &&
           residues_buffer(short_denominators) == RESIDUES_DENOMINATORS;
}

// Two rows exchanged modulo 5, whose first corner is singular; zeros, and a square too short by its name.
static bool dense_solution_is_right()
{
    const uint32_t exchange[] = {0, 0, 0, 1, 1, 0, 0, 0, 1, 0, 0, 0, 0, 1}, zeros[] = {0, 0}, column[] = {2, 3};
    uint32_t work[2], square[4] = {1, 1, 1, 1}, solution[2];
    const uint64_t corner = residues_solve(5, 2, 1, 1, exchange, 14, column, 2, work, 2, solution, 2);
    const uint64_t short_square = residues_solve_dense(5, 2, 1, 1, exchange, 14, column, 2, square, 3, solution, 2);
    const uint64_t solved = residues_solve_dense(5, 2, 1, 1, exchange, 14, column, 2, square, 4, solution, 2);
    const uint64_t singular = residues_solve_dense(5, 2, 0, 0, zeros, 2, column, 2, square, 4, solution, 2);
    const uint64_t large = residues_solve_dense(5, 257, 0, 0, nullptr, 0, nullptr, 0, nullptr, 0, nullptr, 0);
    const bool is_solved = residues_number(solved) == RESIDUES_OK && solution[0] == 3 && solution[1] == 2 && square[0] == 0 &&
                           square[1] == 0 && square[2] == 0 && square[3] == 0;
    const bool is_refused = residues_number(corner) == RESIDUES_ZERO_PIVOT && residues_row(corner) == 1 &&
                            residues_number(singular) == RESIDUES_ZERO_PIVOT && residues_row(singular) == 0 &&
                            residues_number(large) == RESIDUES_BAD_SIZE;
    return is_solved && is_refused && residues_buffer(short_square) == RESIDUES_SQUARE;
}

// The same rows exchanged, whose first corner is singular, and rows 4 4, 4 4 modulo 5, whose second is; each refusal by its name.
static bool kernel_is_right()
{
    const uint32_t exchange[] = {0, 0, 0, 1, 1, 0, 0, 0, 1, 0, 0, 0, 0, 1}, fours[] = {4, 0, 0, 1, 4, 0, 0, 4, 4, 0, 0, 0, 0, 1};
    const uint32_t ones[] = {1, 1};
    uint32_t first[2] = {7, 7}, second[2] = {7, 7};
    const uint64_t found_first = residues_kernel(5, 2, 1, 1, exchange, 14, first, 2);
    const uint64_t found_second = residues_kernel(5, 2, 1, 1, fours, 14, second, 2);
    const uint64_t regular = residues_kernel(5, 2, 0, 0, ones, 2, second, 2);
    const uint64_t short_result = residues_kernel(5, 2, 1, 1, exchange, 14, nullptr, 0);
    const uint64_t shown = residues_kernel_check(5, 2, 1, 1, 2, fours, 14, second, 2);
    const uint64_t not_shown = residues_kernel_check(5, 2, 1, 1, 2, fours, 14, ones, 2);
    const uint64_t outside = residues_kernel_check(5, 2, 1, 1, 3, nullptr, 0, nullptr, 0);
    const uint64_t later = residues_kernel_check(5, 2, 1, 1, 1, exchange, 14, first, 2);
    const bool is_found = residues_number(found_first) == RESIDUES_OK && residues_value(found_first) == 1 && first[0] == 1 &&
                          first[1] == 7 && residues_number(found_second) == RESIDUES_OK && residues_value(found_second) == 2 &&
                          second[0] == 4 && second[1] == 1;
    const bool is_told = residues_number(shown) == RESIDUES_OK && residues_value(shown) == 1 &&
                         residues_number(not_shown) == RESIDUES_OK && residues_value(not_shown) == 0;
    const bool is_refused = residues_number(regular) == RESIDUES_REGULAR && residues_buffer(short_result) == RESIDUES_RESULT &&
                            residues_number(outside) == RESIDUES_BAD_PLACE && residues_number(later) == RESIDUES_BAD_WORD &&
                            residues_buffer(later) == RESIDUES_COLUMN && residues_row(later) == 2;
    return is_found && is_told && is_refused;
}

int main()
{
    const uint32_t diagonal[] = {2, 3};
    const uint64_t reply = residues_entry(5, 2, 0, 0, 2, 2, diagonal, 2);
    uint32_t sum[2], product[2], solution[2], inverse[2];
    const uint64_t added = residues_sum(5, 2, 0, 0, 0, 0, diagonal, 2, diagonal, 2, sum, 2);
    const uint64_t multiplied = residues_product(5, 2, 0, 0, 0, 0, diagonal, 2, diagonal, 2, product, 2);
    const uint64_t solved = residues_solve(5, 2, 0, 0, diagonal, 2, diagonal, 2, nullptr, 0, solution, 2);
    const uint64_t inverted = residues_inverse(5, 2, 0, 0, diagonal, 2, inverse, 2);
    uint8_t file[36];
    uint32_t table[2];
    const uint64_t written = residues_write_file(5, 2, 0, 0, diagonal, 2, file, residues_file_bytes(2, 0, 0));
    const uint64_t read = residues_read_file(file, sizeof file, table, 2);
    const bool entry_is_3 = residues_number(reply) == RESIDUES_OK && residues_value(reply) == 3;
    const bool sum_is_4_1 = residues_number(added) == RESIDUES_OK && sum[0] == 4 && sum[1] == 1;
    const bool product_is_4_4 = residues_number(multiplied) == RESIDUES_OK && product[0] == 4 && product[1] == 4;
    const bool solution_is_1_1 = residues_number(solved) == RESIDUES_OK && solution[0] == 1 && solution[1] == 1;
    const bool inverse_is_3_2 = residues_number(inverted) == RESIDUES_OK && inverse[0] == 3 && inverse[1] == 2;
    const bool head_is_2_0_0 = residues_file_size(file) == 2 && residues_file_lower(file) == 0 && residues_file_upper(file) == 0;
    const bool is_written = residues_number(written) == RESIDUES_OK && head_is_2_0_0 && file[24] == 2 && file[32] == 3;
    const bool is_read = residues_number(read) == RESIDUES_OK && residues_value(read) == 5 && table[0] == 2 && table[1] == 3;
    const bool files_are_right = is_written && is_read;
    const bool tables_are_right = entry_is_3 && sum_is_4_1 && product_is_4_4 && solution_is_1_1 && inverse_is_3_2;
    return tables_are_right && files_are_right && fractions_are_right() && dense_solution_is_right() && kernel_is_right() ? 0 : 1;
}
