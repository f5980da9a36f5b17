/* Tries wermazul_matches() without an archive: wermazul_layout is here, and says what the header says, and then one number after the other
   wrong. Ends with 1 where a wrong one passes, or the right ones do not. */
#include "wermazul.h"

#include <stdio.h>

static wermazul_layout_record said;

wermazul_layout_record wermazul_layout(void)
{
    return said;
}

static wermazul_layout_record right(void)
{
    wermazul_layout_record here = {
        WERMAZUL_VERSION, sizeof(wermazul_book_record), sizeof(wermazul_ledger_record), sizeof(wermazul_held), sizeof(wermazul_told),
        sizeof(wermazul_counts), sizeof(wermazul_counts_told), sizeof(wermazul_ledger_told), sizeof(wermazul_turn_told), sizeof(wermazul_line_told)};
    return here;
}

int main(void)
{
    uint64_t *numbers[] = {&said.version, &said.book, &said.ledger, &said.held, &said.told,
                           &said.counts, &said.counts_told, &said.ledger_told, &said.turn_told, &said.line_told};
    size_t count = sizeof numbers / sizeof *numbers;
    said = right();
    if (!wermazul_matches() || sizeof said != count * sizeof(uint64_t)) {
        printf("the header's own numbers do not match\n");
        return 1;
    }
    for (size_t i = 0; i < count; i++) {
        said = right();
        *numbers[i] += 1;
        if (wermazul_matches()) {
            printf("number %d of the layout is wrong, and matches\n", (int)i);
            return 1;
        }
    }
    printf("%d wrong layouts told\n", (int)count);
    return 0;
}
