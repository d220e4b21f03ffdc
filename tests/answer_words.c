/* The answers of include/rigtemple.h in words: number, name and sentence, a line for each number up
 * to the last, and one line more. tests/c.sh holds them against docs/API.md. */
#include <stdio.h>

#include "../include/rigtemple.h"

int main(void)
{
    for (uint16_t answer = 0; answer <= RIGTEMPLE_ANSWER_LARGE + 1; answer++)
        printf("%d|%s|%s\n", answer, rigtemple_answer_name(answer),
               rigtemple_answer_sentence(answer));
    return 0;
}
