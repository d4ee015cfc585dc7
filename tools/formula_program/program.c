/* runglaet_formula_program of libformula_printer.a: reads standard input, has the proved function print what it asks for
 * (crates/formula_printer), and says on standard error why a read or a write failed. Answers the exit status: 0 the
 * formula was printed, 1 the instance was refused, 2 a read or a write failed. It is in C since reading takes a runtime,
 * which only a program's own main has in Rattle. */
#include <errno.h>
#include <stdint.h>
#include <stdio.h>
#include <string.h>
#include <unistd.h>

uint32_t runglaet_formula_of(const uint8_t *input, size_t length);
uint32_t runglaet_formula_program(void);

/* The byte m and an instance; what stands behind them is not read. */
#define MOST 4070
#define FAILED 2

static uint32_t failed(const char *what) {
    fprintf(stderr, "formula_program: %s: %s\n", what, strerror(errno));
    return FAILED;
}

uint32_t runglaet_formula_program(void) {
    uint8_t input[MOST];
    size_t length = 0;
    while (length < MOST) {
        ssize_t got = read(STDIN_FILENO, input + length, MOST - length);
        if (got < 0 && errno == EINTR) continue;
        if (got < 0) return failed("the input cannot be read");
        if (got == 0) break;
        length += (size_t)got;
    }
    uint32_t status = runglaet_formula_of(input, length);
    return status == FAILED ? failed("the output cannot be written") : status;
}
