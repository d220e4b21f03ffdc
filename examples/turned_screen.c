/*
 * A weaving guide in a terminal, which loses no pick: turned_screen CARD KEPT [PROGRAM]
 *
 * The same app is written in C, Rust, Python and JavaScript, and each goes on from another's file.
 *
 * It shows the last move done and, behind it, what comes next: `last: none` or `last: 1 select 0`,
 * and `next: 2 revise 0` or, if that is all, `end: ` and rest, full, finished, stuck or idle. By
 * itself the guide tells what comes next, with PROGRAM the shed's own deliberation.
 * It reads a line with the number of the move that the weaver has made: that is when it is taken,
 * kept, and the one after it shown. Another line, such as a second touch of one screen, changes
 * nothing. The end of the input is the turn of the screen: it goes on then from the file KEPT.
 * It keeps one file, replaced in one step; numbers have their low byte first:
 *     4 bytes    the card's fingerprint: another card's place is not gone on with
 *     4          how many moves are done: two moves in a row may be alike
 *     2          the code of the last one, 65535 where none is done
 *     2, 2       how many bytes the program has, 0 for no program, and how many numbers remain
 *     those      the program, the numbers
 *     the rest   the place
 * What is refused of it is told and left as it is. Without a file the card begins.
 *
 * Here a choice's code behind the number says that the weaver made that move in its stead: `2 513`.
 *
 * Exit status: 0 the card ended or the screen was turned; 1 something is refused; 2 a file could
 * not be read or kept.
 */
#define _POSIX_C_SOURCE 200809L

#include <errno.h>
#include <fcntl.h>
#include <stdio.h>
#include <stdlib.h>
#include <string.h>
#include <unistd.h>

#include "rigtemple.h"

enum { LONGEST_NAME = 4096, HEAD_BYTES = 14, MOST_IDLE = 1000 };
enum { MOST_KEPT_BYTES = HEAD_BYTES + RIGTEMPLE_MOST_PROGRAM_BYTES + RIGTEMPLE_MOST_REMAINING +
                         RIGTEMPLE_MOST_PLACE_BYTES };

static uint8_t card[RIGTEMPLE_MOST_CARD_BYTES + 1]; /* one more, so that a longer file is refused */
static size_t card_len;

/* A weaving as far as it is done. */
struct weaving {
    struct rigtemple_configuration c;
    uint32_t moves;
    uint16_t last;
    uint8_t program[RIGTEMPLE_MOST_PROGRAM_BYTES + 1];
    size_t program_len;
    uint8_t numbers[RIGTEMPLE_MOST_REMAINING];
    size_t numbers_len;
};

/* Tells a refusal by its name and its sentence; the exit status. */
static int refused(const char *what, uint16_t answer)
{
    fprintf(stderr, "%s is refused: %s: %s\n", what, rigtemple_answer_name(answer),
            rigtemple_answer_sentence(answer));
    return 1;
}

/* Tells why a file failed; the exit status. */
static int failed(const char *what, const char *name, int why)
{
    fprintf(stderr, "%s %s: %s\n", what, name, strerror(why));
    return 2;
}

/* ---- files ---- */

/* Reads a file, as much of it as there is room for: 0, or the number of the error. That there is
 * no file is ENOENT; an empty file is no error, and 0 bytes. */
static int read_file(const char *name, uint8_t *to, size_t room_in_bytes, size_t *len)
{
    FILE *file = fopen(name, "rb");
    int why;
    if (file == NULL)
        return errno;
    *len = fread(to, 1, room_in_bytes, file);
    why = ferror(file) ? errno : 0;
    fclose(file);
    return why;
}

/* Writes a file to the disk: 0, or the number of the error. */
static int write_file(const char *name, const uint8_t *from, size_t bytes)
{
    FILE *file = fopen(name, "wb");
    int why = 0;
    if (file == NULL)
        return errno;
    if (fwrite(from, 1, bytes, file) != bytes || fflush(file) != 0 || fsync(fileno(file)) != 0)
        why = errno;
    if (fclose(file) != 0 && why == 0)
        why = errno;
    return why;
}

/* Writes the folder that a file is in to the disk, so that the file's name is there too. */
static int write_folder(const char *name)
{
    char folder[LONGEST_NAME];
    char *end;
    int why, file;
    snprintf(folder, sizeof folder, "./%s", name);
    if (name[0] == '/')
        snprintf(folder, sizeof folder, "%s", name);
    end = strrchr(folder, '/');
    end[1] = '\0';
    file = open(folder, O_RDONLY);
    if (file < 0)
        return errno;
    why = fsync(file) == 0 ? 0 : errno;
    close(file);
    return why;
}

/* Puts bytes in a file's stead in one step: they are written beside it, and then renamed. So the
 * file is the one or the other, whole, whenever the machine stops. 0, or the error. */
static int replace(const char *name, const uint8_t *from, size_t bytes)
{
    char beside[LONGEST_NAME];
    int why, length = snprintf(beside, sizeof beside, "%s.beside", name);
    if (length < 0 || (size_t)length >= sizeof beside)
        return ENAMETOOLONG;
    why = write_file(beside, from, bytes); /* dies before the rename: the file is the former one */
    if (why != 0)
        return why;
    if (rename(beside, name) != 0) /* dies after it: the file is the new one */
        return errno;
    return write_folder(name);
}

/* ---- what is kept ---- */

/* The card's fingerprint: FNV-1a of 32 bits. */
static uint32_t fingerprint(void)
{
    uint32_t sum = 2166136261u;
    size_t i;
    for (i = 0; i < card_len; i++)
        sum = (sum ^ card[i]) * 16777619u;
    return sum;
}

static void put(uint8_t *to, uint32_t number, int bytes)
{
    for (; bytes > 0; bytes--, number >>= 8)
        *to++ = (uint8_t)number;
}

static uint32_t get(const uint8_t *from, int bytes)
{
    return bytes == 0 ? 0 : from[0] + 256 * get(from + 1, bytes - 1);
}

/* Keeps a weaving. */
static int keep(const char *name, const struct weaving *w)
{
    uint8_t kept[MOST_KEPT_BYTES], *place = kept + HEAD_BYTES + w->program_len + w->numbers_len;
    uint16_t bytes, answer;
    int why;
    put(kept, fingerprint(), 4);
    put(kept + 4, w->moves, 4);
    put(kept + 8, w->last, 2);
    put(kept + 10, (uint32_t)w->program_len, 2);
    put(kept + 12, (uint32_t)w->numbers_len, 2);
    memcpy(kept + HEAD_BYTES, w->program, w->program_len);
    memcpy(kept + HEAD_BYTES + w->program_len, w->numbers, w->numbers_len);
    answer = rigtemple_save(card, card_len, &w->c, place, RIGTEMPLE_MOST_PLACE_BYTES, &bytes);
    if (answer != RIGTEMPLE_ANSWER_DONE)
        return refused("the save", answer);
    why = replace(name, kept, (size_t)(place - kept) + bytes);
    return why == 0 ? 0 : failed("nothing is kept in", name, why);
}

/* Goes on from what was kept: the program too is that one. */
static int restore(const uint8_t *kept, size_t kept_len, struct weaving *w)
{
    size_t place = HEAD_BYTES;
    uint16_t answer;
    if (kept_len >= HEAD_BYTES) {
        w->moves = get(kept + 4, 4);
        w->last = (uint16_t)get(kept + 8, 2);
        w->program_len = get(kept + 10, 2);
        w->numbers_len = get(kept + 12, 2);
        place += w->program_len + w->numbers_len;
    }
    if (place > kept_len || w->program_len > RIGTEMPLE_MOST_PROGRAM_BYTES ||
        w->numbers_len > RIGTEMPLE_MOST_REMAINING ||
        (w->moves != 0 && RIGTEMPLE_KIND_OF(w->last) > RIGTEMPLE_KIND_REVISION)) {
        fprintf(stderr, "what was kept is cut off, or is no such file\n");
        return 1;
    }
    if (get(kept, 4) != fingerprint()) {
        fprintf(stderr, "what was kept is of another card\n");
        return 1;
    }
    memcpy(w->program, kept + HEAD_BYTES, w->program_len);
    memcpy(w->numbers, kept + HEAD_BYTES + w->program_len, w->numbers_len);
    answer = rigtemple_restore(card, card_len, kept + place, kept_len - place, &w->c);
    return answer == RIGTEMPLE_ANSWER_DONE ? 0 : refused("the kept place", answer);
}

/* Begins the card: at first the program's last entry remains, which is the whole. It is kept before
 * anything is shown, so that a folder that cannot be written is told before anything is woven. */
static int load(const char *name, const char *program, struct weaving *w)
{
    uint16_t answer = rigtemple_load(card, card_len, &w->c);
    int why;
    w->moves = 0;
    w->last = RIGTEMPLE_NO_CHOICE;
    w->program_len = w->numbers_len = 0;
    if (answer != RIGTEMPLE_ANSWER_DONE)
        return refused("the card", answer);
    if (program != NULL) {
        uint16_t moves;
        uint8_t ending, count;
        why = read_file(program, w->program, sizeof w->program, &w->program_len);
        if (why != 0)
            return failed("the program is not read from", program, why);
        answer = rigtemple_deliberate(card, card_len, w->program, w->program_len, &w->c, 0, &moves,
                                      &ending, w->numbers, &count);
        if (answer != RIGTEMPLE_ANSWER_DONE)
            return refused("the program", answer);
        w->numbers_len = count;
    }
    return keep(name, w);
}

/* The weaving to go on with: the kept one, or the card's first where none was kept. */
static int begin(const char *name, const char *program, struct weaving *w)
{
    uint8_t kept[MOST_KEPT_BYTES + 1];
    size_t kept_len;
    int why = read_file(name, kept, sizeof kept, &kept_len);
    if (why == ENOENT)
        return load(name, program, w);
    return why != 0 ? failed("what was kept is not read from", name, why)
                    : restore(kept, kept_len, w);
}

/* ---- what comes next ---- */

static int same(const struct rigtemple_configuration *a, const struct rigtemple_configuration *b)
{
    return memcmp(a->beliefs, b->beliefs, sizeof a->beliefs) == 0 &&
           memcmp(a->goals, b->goals, sizeof a->goals) == 0 &&
           memcmp(a->plan, b->plan, sizeof a->plan) == 0 && a->length == b->length &&
           a->phase == b->phase && a->finished == b->finished;
}

/* The code of the move that a program made: the first of the list that leaves the same. There is
 * one, for a program makes moves of the card. */
static uint16_t made(const struct rigtemple_configuration *before,
                     const struct rigtemple_configuration *after)
{
    uint16_t list[RIGTEMPLE_MOST_LIST_ENTRIES], entries, i, node;
    if (rigtemple_list(card, card_len, before, list, RIGTEMPLE_MOST_LIST_ENTRIES, &entries) !=
        RIGTEMPLE_ANSWER_DONE)
        return RIGTEMPLE_NO_CHOICE;
    for (i = 0; i < entries; i++) {
        struct rigtemple_configuration c = *before;
        if (rigtemple_take(card, card_len, &c, list[i], &node) == RIGTEMPLE_ANSWER_DONE &&
            same(&c, after))
            return list[i];
    }
    return RIGTEMPLE_NO_CHOICE;
}

/* The guide's own: its code, and nothing is made; or how the card ends. */
static int next_of_guide(const struct weaving *w, uint16_t *choice, const char **end)
{
    static const char *const ends[] = {NULL, "rest", "full"};
    uint8_t coming;
    uint16_t answer = rigtemple_next(card, card_len, &w->c, &coming, choice);
    if (answer != RIGTEMPLE_ANSWER_DONE)
        return refused("what comes next", answer);
    *end = ends[coming];
    return 0;
}

/* The program's: its code, and in the copy what it leaves; or how the program ends. A move that
 * changes nothing, as an idle one does, is passed and not shown, so many in a row. */
static int next_of_program(const struct weaving *w, struct weaving *copy, uint16_t *choice,
                           const char **end)
{
    static const char *const ends[] = {NULL, "finished", "stuck", "full"};
    uint8_t ending, count, remaining[RIGTEMPLE_MOST_REMAINING];
    uint16_t moves, answer;
    int i;
    *end = NULL;
    for (i = 0; i < MOST_IDLE; i++) {
        answer = rigtemple_go_on(card, card_len, copy->program, copy->program_len, copy->numbers,
                                 copy->numbers_len, &copy->c, 1, &moves, &ending, remaining,
                                 &count);
        if (answer != RIGTEMPLE_ANSWER_DONE)
            return refused("what remains of the program", answer);
        *end = ends[ending];
        if (*end != NULL)
            return 0;
        memcpy(copy->numbers, remaining, sizeof remaining);
        copy->numbers_len = count;
        if (!same(&w->c, &copy->c)) {
            *choice = made(&w->c, &copy->c);
            return 0;
        }
    }
    *end = "idle";
    return 0;
}

/* ---- the guide ---- */

/* Writes a line of the screen: a move's number, its kind and the number of its rule. */
static void write_move(const char *what, uint32_t number, uint16_t choice)
{
    static const char *const kinds[] = {"select", "act", "revise"};
    printf("%s: %lu %s %d\n", what, (unsigned long)number, kinds[RIGTEMPLE_KIND_OF(choice)],
           RIGTEMPLE_NUMBER_OF(choice));
}

/* Shows the finished count, the codes of all moves that are open, the last one done, and what comes
 * next. */
static int show(const struct weaving *w, uint16_t choice, const char *end)
{
    uint16_t list[RIGTEMPLE_MOST_LIST_ENTRIES], entries, i;
    uint16_t answer =
        rigtemple_list(card, card_len, &w->c, list, RIGTEMPLE_MOST_LIST_ENTRIES, &entries);
    if (answer != RIGTEMPLE_ANSWER_DONE)
        return refused("the list", answer);
    printf("bands finished: %d\nopen:", w->c.finished);
    for (i = 0; i < entries; i++)
        printf(" %d", list[i]);
    printf("\n");
    if (w->moves == 0)
        printf("last: none\n");
    else
        write_move("last", w->moves, w->last);
    if (end == NULL)
        write_move("next", w->moves + 1, choice);
    else
        printf("end: %s\n", end);
    fflush(stdout);
    return 0;
}

/* The code of the move that a line says is made as the one of a number: the one shown, or one that
 * stands behind the number; -1 if the line says no such thing. */
static long said(const char *line, uint32_t number, uint16_t choice)
{
    char *end;
    unsigned long first = strtoul(line, &end, 10), code = choice;
    if (end == line || first != number)
        return -1;
    if (end[0] == ' ' && end[1] != '\n')
        code = strtoul(end + 1, &end, 10);
    if (*end != '\n')
        return -1;
    return (long)(code < RIGTEMPLE_NO_CHOICE ? code : RIGTEMPLE_NO_CHOICE);
}

/* Takes a move; of one that is closed it tells why, and which node settled its condition. */
static int take(struct weaving *w, uint16_t choice)
{
    uint16_t node, answer = rigtemple_take(card, card_len, &w->c, choice, &node);
    if (answer == RIGTEMPLE_ANSWER_DONE)
        return 0;
    refused("the move", answer);
    if (answer == RIGTEMPLE_ANSWER_CONDITION)
        fprintf(stderr, "(node %d)\n", node);
    return 1;
}

/* Guides to the card's end or the turn of the screen. Beside the lines stands what becomes of the
 * move that is shown as the next, number n, if the tablet dies there. */
static int guide(const char *name, struct weaving *w)
{
    struct weaving after;
    uint16_t choice;
    const char *end;
    char line[32];
    long code;
    int status;
    for (;;) {
        /* Dies here: n is not shown yet. What is kept is done up to n - 1, and n is shown then. */
        after = *w;
        status = w->program_len == 0 ? next_of_guide(w, &choice, &end)
                                     : next_of_program(w, &after, &choice, &end);
        if (status == 0)
            status = show(w, choice, end);
        /* Dies here, while the weaver makes n: the same screen is shown again, last n - 1. */
        if (status != 0 || end != NULL || fgets(line, sizeof line, stdin) == NULL)
            return status;
        /* Dies from here on, n made and said to be: her touch is lost. The same screen is shown
         * again, and as n - 1 is the last she sees that n does not count yet: she does not make it
         * twice, but says so once more. */
        code = said(line, w->moves + 1, choice);
        if (code < 0)
            continue;
        if (w->program_len == 0 || code != choice) {
            after = *w;
            if (take(&after, (uint16_t)code) != 0)
                continue;
        }
        after.moves++;
        after.last = (uint16_t)code;
        status = keep(name, &after);
        if (status != 0)
            return status;
        /* Dies from the rename in `keep` on: n is kept, and shown as the last beside n + 1. */
        *w = after;
    }
}

int main(int count, char **words)
{
    struct weaving w;
    uint16_t answer;
    int status;
    if (count != 3 && count != 4) {
        fprintf(stderr, "usage: turned_screen CARD KEPT [PROGRAM]\n");
        return 2;
    }
    status = read_file(words[1], card, sizeof card, &card_len);
    if (status != 0)
        return failed("the card is not read from", words[1], status);
    answer = rigtemple_check(card, card_len);
    if (answer != RIGTEMPLE_ANSWER_DONE)
        return refused("the card", answer);
    status = begin(words[2], words[3], &w);
    return status != 0 ? status : guide(words[2], &w);
}
