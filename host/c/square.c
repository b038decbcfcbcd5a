/* Squares a card: four corners picked on a photograph of 8 by 6 pixels, to a picture of 4 by 2. */
#include "dihyravo.h"
#include <stdio.h>

int main(void)
{
    float photo[6 * 8], card[2 * 4];
    for (int k = 0; k < 6 * 8; k++) photo[k] = (float)(k % 8) / 8;

    /* u, v on the photograph, then x, y on the card; clockwise from the upper left corner */
    double corners[] = {2, 1, 0, 0, 6, 1, 4, 0, 7, 5, 4, 2, 1, 5, 0, 2};
    struct dihyravo_job job = {.picture = photo, .picture_length = sizeof photo, .width = 8, .height = 6, .channels = 1,
                               .method = DIHYRAVO_METHOD_PERSPECTIVE,
                               .arguments = corners, .arguments_length = sizeof corners,
                               .interpolation = DIHYRAVO_INTERPOLATION_BILINEAR, .background = {1, 1, 1, 1},
                               .viewport = 1, .view_width = 4, .view_height = 2, .rows = 2};
    struct dihyravo_answer answer;
    uint64_t refusal = dihyravo_run(&job, card, sizeof card, &answer);
    if (refusal != 0) return fprintf(stderr, "refusal %d: %s\n", (int)refusal, dihyravo_word(refusal)), 1;

    for (int k = 0; k < 2 * 4; k++) printf("%.4f%c", (double)card[k], k % 4 == 3 ? '\n' : ' ');
    return 0;
}
