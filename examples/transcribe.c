/* From one form of text into another, from standard input to standard output: transcribe SOURCE
 * TARGET, each a number from 1 to 7. */
#include "finetalc.h"

#include <inttypes.h>
#include <stdio.h>
#include <stdlib.h>

static uint8_t sector[FINETALC_LONGEST_SECTOR];
static uint8_t output[FINETALC_LONGEST_SECTOR]; /* any size from 4 bytes up will do */

static int refused(const struct finetalc_answer *answer)
{
    fprintf(stderr, "transcribe: refused %u", answer->number);
    if (answer->number == 6 || answer->number == 7 || answer->number == 9)
        fprintf(stderr, " at offset %" PRIu64, answer->offset);
    if (answer->number == 7)
        fprintf(stderr, ": U+%04" PRIX32 " has no coding in the target", answer->character);
    if (answer->number == 6 || answer->number == 7)
        fprintf(stderr, ": cause %u, depth %u", answer->cause, answer->depth);
    fputc('\n', stderr);
    return EXIT_FAILURE;
}

/* The form that a word gives by its number; 0, which is none, if it gives none. */
static uint32_t form(const char *word)
{
    return word[0] >= '1' && word[0] <= '7' && word[1] == '\0' ? (uint32_t)(word[0] - '0') : 0;
}

int main(int count, char **words)
{
    struct finetalc_transcript transcript;
    struct finetalc_progress progress;
    struct finetalc_answer answer;
    size_t length;

    if (count != 3) {
        fputs("usage: transcribe SOURCE TARGET < TEXT > TEXT\n", stderr);
        return EXIT_FAILURE;
    }
    if (!finetalc_open(form(words[1]), form(words[2]), &transcript, &answer))
        return refused(&answer);
    while ((length = fread(sector, 1, sizeof sector, stdin)) > 0) {
        size_t taken = 0;
        bool done;

        do { /* the output may be too small for the whole sector: then the rest is offered again */
            done = finetalc_offer(&transcript, sector + taken, length - taken,
                                  output, sizeof output, &answer);
            fwrite(output, 1, answer.written, stdout);
            taken += answer.taken;
        } while (!done && answer.number == 8);
        if (!done)
            return refused(&answer);
    }
    if (!finetalc_close(&transcript, &answer))
        return refused(&answer);
    if (ferror(stdin) || fflush(stdout) != 0 || ferror(stdout)) {
        perror("transcribe");
        return EXIT_FAILURE;
    }
    finetalc_status(&transcript, &progress, &answer);
    fprintf(stderr, "%" PRIu64 " bytes, %" PRIu64 " characters\n",
            progress.taken, progress.characters);
    return EXIT_SUCCESS;
}
