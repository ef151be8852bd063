/* calls JOB [ANSWERS]: the calls from C, on the job of a file and on its first solid, in another floating-point environment too; the
 * answers go to a file where one is named. With -DSYMBOLS the archive's symbols, declared as another language would; else the header's
 * functions. */
#include <fenv.h>
#include <stdint.h>
#include <stdio.h>
#include <stdlib.h>
#include <string.h>

#ifdef SYMBOLS
uint64_t solid_version(void);
uint64_t solid_room_words(uint64_t corners);
const char *solid_reason(uint64_t number);
uint64_t solid_fuse_in(void *room, const uint8_t *job, size_t job_n, uint64_t corners, uint8_t *answer, size_t answer_n);
uint64_t solid_cells_in(void *room, const uint8_t *job, size_t job_n, uint64_t corners, uint8_t *answer, size_t answer_n);
uint64_t solid_offset_in(void *room, const uint8_t *cell, size_t cell_n, double distance, uint64_t corners, uint8_t *answer,
                         size_t answer_n);
uint64_t solid_hollow_in(void *room, const uint8_t *cell, size_t cell_n, double thickness, uint64_t corners, uint8_t *answer,
                         size_t answer_n);
uint64_t solid_mesh_in(const uint8_t *facet, size_t facet_n, uint8_t *answer, size_t answer_n);
#else
#include <solid.h>
#endif

enum { CORNERS = 720, MEMORY = 64 * CORNERS, CALLS = 5, TOLERANCES = 17, POINT = 25 };

static uint8_t job[32768], facet[TOLERANCES + 97 + 4 * POINT];
static size_t job_n, cell_n;
static uint64_t *room;

static void expect(const char *what, int holds)
{
    if (!holds) {
        printf("calls from C: %s\n", what);
        exit(1);
    }
}

/* The first solid of a job of two boxes, and the facet of its points 0, 1, 3, 2 in the plane z = 0. */
static void take_parts(void)
{
    static const double plane[12] = {0, 0, 0, 1, 0, 0, 0, 1, 0, 0, 0, 1};
    static const size_t places[4] = {0, 1, 3, 2};
    cell_n = TOLERANCES + 8 * POINT + 6 * (1 + 4 * 3) + 1;
    memcpy(facet, job, TOLERANCES);
    facet[TOLERANCES] = 9;
    memcpy(facet + TOLERANCES + 1, plane, sizeof plane);
    for (size_t i = 0; i < 4; i++)
        memcpy(facet + TOLERANCES + 97 + i * POINT, job + TOLERANCES + places[i] * POINT, POINT);
}

static uint64_t call(int which, void *block, uint8_t *answer)
{
    switch (which) {
    case 0: return solid_fuse_in(block, job, job_n, CORNERS, answer, MEMORY);
    case 1: return solid_cells_in(block, job, job_n, CORNERS, answer, MEMORY);
    case 2: return solid_offset_in(block, job, cell_n, 0.3, CORNERS, answer, MEMORY);
    case 3: return solid_hollow_in(block, job, cell_n, 0.3, CORNERS, answer, MEMORY);
    default: return solid_mesh_in(facet, sizeof facet, answer, MEMORY);
    }
}

static int room_is_zero(void)
{
    for (uint64_t i = 0; i < solid_room_words(CORNERS); i++)
        if (room[i] != 0)
            return 0;
    return 1;
}

int main(int count, char **words)
{
    static uint8_t plain[MEMORY], other[MEMORY];
    FILE *file = count > 1 ? fopen(words[1], "rb") : NULL;
    expect("a job file is named", file != NULL);
    job_n = fread(job, 1, sizeof job, file);
    fclose(file);
    take_parts();
    file = count > 2 ? fopen(words[2], "wb") : NULL;
    room = calloc(solid_room_words(CORNERS), 8);
    for (int which = 0; which < CALLS; which++) {
        memset(plain, 0, MEMORY);
        memset(other, 0, MEMORY);
        const uint64_t told = call(which, room, plain);
        expect("an answer", told % 256 == 0 && told / 256 > 0);
        feclearexcept(FE_ALL_EXCEPT);
        fesetround(FE_UPWARD);
        const uint64_t again = call(which, room, other);
        const int kept = fegetround() == FE_UPWARD && fetestexcept(FE_ALL_EXCEPT) == 0;
        fesetround(FE_TONEAREST);
        expect("the host's environment is handed back", kept);
        expect("the same answer in it", again == told && memcmp(plain, other, MEMORY) == 0);
        expect("a room that is zero", room_is_zero());
        expect("12 without a block", which == CALLS - 1 || call(which, NULL, other) == 12);
        expect("the answer is kept", file == NULL || fwrite(plain, 1, told / 256, file) == told / 256);
    }
    expect("the answers are kept", file == NULL || fclose(file) == 0);
    expect("words for a number", strcmp(solid_reason(12), "the room lent is too small") == 0 && *solid_reason(255) == '\0');
#ifdef SYMBOLS
    expect("a version", solid_version() != 0);
#else
    expect("the header's version", solid_version() == SOLID_VERSION);
#endif
    free(room);
    puts("calls from C: ok");
    return 0;
}
