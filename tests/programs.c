/* Programs of entries: how one is put together, and those of the C programs. */
#include "programs.h"

unsigned put_entry(struct program_bytes *program, unsigned kind, unsigned a, unsigned b)
{
    uint8_t *entry = program->bytes + program->len;
    unsigned number = (unsigned)(program->len / RIGTEMPLE_ENTRY_BYTES);
    entry[0] = (uint8_t)kind;
    entry[1] = (uint8_t)a;
    entry[2] = (uint8_t)b;
    entry[3] = 0;
    program->len += RIGTEMPLE_ENTRY_BYTES;
    return number;
}

/* ---- the two sheds ---- */

/* "execute" as entry 0, revision i as entry i + 1, and the lowest of them that is enabled; the
 * number of that entry. */
static unsigned put_revisions(struct program_bytes *program, unsigned revisions)
{
    unsigned lowest = 1;
    program->len = 0;
    put_entry(program, RIGTEMPLE_ENTRY_EXECUTE, 0, 0);
    for (unsigned i = 0; i < revisions; i++)
        put_entry(program, RIGTEMPLE_ENTRY_APPLY, i, 0);
    for (unsigned i = 1; i < revisions; i++)
        lowest = put_entry(program, RIGTEMPLE_ENTRY_OR, lowest, i + 1);
    return lowest;
}

/* Selection 0, then while the plan is not empty that body. */
static void put_whole(struct program_bytes *program, unsigned body)
{
    unsigned loop = put_entry(program, RIGTEMPLE_ENTRY_WHILE_PLAN, 0, body);
    unsigned chosen = put_entry(program, RIGTEMPLE_ENTRY_SELECT, 0, 0);
    put_entry(program, RIGTEMPLE_ENTRY_THEN, chosen, loop);
}

void teaching_program(struct program_bytes *program, unsigned revisions)
{
    unsigned revise = put_revisions(program, revisions);
    put_whole(program, put_entry(program, RIGTEMPLE_ENTRY_OR, revise, 0));
}

void fast_program(struct program_bytes *program, unsigned revisions)
{
    unsigned revise = put_revisions(program, revisions);
    put_whole(program, put_entry(program, RIGTEMPLE_ENTRY_OR, 0, revise));
}

/* ---- towers ---- */

void tower_program(struct program_bytes *program, unsigned kind)
{
    program->len = 0;
    put_entry(program, RIGTEMPLE_ENTRY_EXECUTE, 0, 0);
    for (unsigned k = 1; k < 128; k++)
        put_entry(program, kind, kind < RIGTEMPLE_ENTRY_THEN ? 0 : k - 1, k - 1);
}
