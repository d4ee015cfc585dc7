/* The formula program with an exit status, which a program in Rattle does not have: 0 the formula was printed, 1 the
 * instance was refused, 2 a read or a write failed (program.c, over the proved crates/formula_printer_c). */
#include <stdint.h>

uint32_t runglaet_formula_program(void);

int main(void) {
    return (int)runglaet_formula_program();
}
