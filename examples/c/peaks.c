/* The envelope peaks of a record that is not held: a file of samples, whole numbers of 32 bits as this machine writes
 * them, the ramp's too, is read twice, a piece at a time; each peak is printed as it is settled, its magnitude in
 * thousandths of a degree and its time in ms after the ramp.
 *
 * peaks STEP RAMP DECORRELATION FILE */
#include "chimenickel.h"
#include <inttypes.h>
#include <stdio.h>
#include <stdlib.h>

enum { PIECE = 4096 };

static uint64_t survey[CHIM_SURVEY_NUMBERS], handing[CHIM_HANDING_NUMBERS], carried;
static int32_t piece[PIECE];
static uint32_t sizes[PIECE], times[PIECE];

static void taken(uint64_t number) {
    if (number == CHIM_TAKEN)
        return;
    printf("refused: %" PRIu64 " (%" PRIu64 ")\n", number, carried);
    exit(1);
}

int main(int words, char **word) {
    FILE *file = words == 5 ? fopen(word[4], "rb") : NULL;
    size_t n;
    if (file == NULL)
        return 2;
    uint64_t item[3];
    for (int i = 0; i < 3; i++)
        item[i] = strtoull(word[i + 1], NULL, 10);
    taken(chim_peaks_survey(item[0], item[1], survey, CHIM_SURVEY_NUMBERS, &carried));
    while ((n = fread(piece, sizeof *piece, PIECE, file)) > 0)
        taken(chim_peaks_take(survey, CHIM_SURVEY_NUMBERS, piece, n, &carried));
    /* a pipe cannot be read twice, and what could not be read is no end */
    if (ferror(file) || fseek(file, 0, SEEK_SET))
        return 2;
    taken(chim_peaks_begin(survey, CHIM_SURVEY_NUMBERS, item[2], handing, CHIM_HANDING_NUMBERS, &carried));
    while ((n = fread(piece, sizeof *piece, PIECE, file)) > 0) {
        taken(chim_peaks_hand_over(handing, CHIM_HANDING_NUMBERS, piece, n, sizes, PIECE, times, PIECE, &carried));
        for (uint64_t i = 0; i < carried; i++)
            printf("%" PRIu32 "\t%" PRIu32 "\n", sizes[i], times[i]);
    }
    if (ferror(file))
        return 2;
    taken(chim_peaks_last(handing, CHIM_HANDING_NUMBERS, sizes, times, &carried));
    if (carried)
        printf("%" PRIu32 "\t%" PRIu32 "\n", sizes[0], times[0]);
    fclose(file);
    return 0;
}
