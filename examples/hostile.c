/* What no reader sends: each call gives a number and changes nothing. In the end each call has
 * given every number that the header names for it, and no other. Every buffer is a block of its
 * own, so that a byte beside it that is touched is noticed. */
#include "zhavdurgon.h"

#include <stdio.h>
#include <stdlib.h>
#include <string.h>

_Static_assert(sizeof(ZhavVolatile) == 12 && sizeof(ZhavStepped) == 16, "the halves' layout");
_Static_assert(sizeof(ZhavTold) == 3 && sizeof(ZhavFlags) == 5, "the bytes' layout");
_Static_assert(sizeof(ZhavWhy) == 2 && sizeof(ZhavCard) == 2, "the pairs' layout");
_Static_assert(offsetof(ZhavRan, done) == 16 && sizeof(ZhavRan) == 32, "a run's layout");
_Static_assert(sizeof(ZhavMade) == 16 && sizeof(ZhavSession) == 24, "the counts' layout");

enum { RESET, WALK, SHOW16, SHOW32, PROGRAM, BLOW, OPEN, ACTS };
enum { STEP = ACTS, STEP_AT, RUN, FLAGS, REASON, CARD, SESSION, CALLS };

/* The numbers that the header names for a call. */
static const struct {
    const char *name;
    uint8_t gives[16];
} calls[CALLS] = {
    [RESET] = {"zhav_reset", {22}},
    [WALK] = {"zhav_walk", {21, 22}},
    [SHOW16] = {"zhav_show16", {22}},
    [SHOW32] = {"zhav_show32", {22}},
    [PROGRAM] = {"zhav_program", {22}},
    [BLOW] = {"zhav_blow", {22}},
    [OPEN] = {"zhav_open", {23, 22}},
    [STEP] = {"zhav_step", {10, 14, 9, 1, 2, 3, 4, 5, 6, 7}},
    [STEP_AT] = {"zhav_step_at", {10, 14, 9, 1, 2, 3, 4, 5, 6, 7}},
    [RUN] = {"zhav_run", {10, 14, 9, 18, 19, 1, 2, 3, 4, 5, 6, 7}},
    [FLAGS] = {"zhav_flags", {9}},
    [REASON] = {"zhav_reason", {10, 14, 9}},
    [CARD] = {"zhav_open_card", {10, 11, 12, 13, 14, 17}},
    [SESSION] = {"zhav_open_session", {10, 11, 12, 13, 14, 15, 16, 17}},
};

static unsigned long given[CALLS][256];

/* In place of a number that is not known beforehand. */
enum { ANY = -1 };

static void need(int condition, const char *what) {
    if (!condition) {
        fprintf(stderr, "hostile: %s\n", what);
        exit(1);
    }
}

static void gave(int call, uint8_t refusal, int number) {
    given[call][refusal]++;
    if (number != ANY && refusal != number) {
        fprintf(stderr, "hostile: %s gives %d, not %d\n", calls[call].name, refusal, number);
        exit(1);
    }
}

static uint64_t state = 1;

/* A number under a bound. */
static uint32_t chance(uint32_t bound) {
    state = state * 6364136223846793005u + 1442695040888963407u;
    return (uint32_t)(state >> 33) % bound;
}

static uint8_t *block(size_t length) {
    uint8_t *bytes = malloc(length ? length : 1);
    need(bytes != NULL, "no memory");
    for (size_t i = 0; i < length; i++) bytes[i] = (uint8_t)chance(256);
    return bytes;
}

static uint8_t *copy(const uint8_t *bytes, size_t length) {
    uint8_t *same = block(length);
    memcpy(same, bytes, length);
    return same;
}

static int same_half(ZhavVolatile a, ZhavVolatile b) {
    return a.lines == b.lines && a.address == b.address && a.flags == b.flags;
}

/* Both calls for a single step. */
static void step_calls(size_t length, uint8_t fuses, ZhavVolatile half, uint8_t n, int number) {
    uint8_t *image = block(length), *before = copy(image, length), *thin = copy(image, length);
    ZhavStepped stepped = zhav_step(image, length, fuses, half, n);
    gave(STEP, stepped.refusal, number);
    if (stepped.refusal != 0) {
        need(same_half(stepped.half, half) && stepped.fuses == fuses, "a refused step moves");
        need(stepped.answer == 1, "a refused step pulls the line");
        need(memcmp(image, before, length) == 0, "a refused step changes the image");
    }
    ZhavVolatile at = half;
    ZhavTold told = zhav_step_at(thin, length, fuses, &at, n);
    gave(STEP_AT, told.refusal, stepped.refusal);
    need(same_half(at, stepped.half), "the thin call has another half");
    need(told.fuses == stepped.fuses && told.answer == stepped.answer, "the thin call differs");
    need(memcmp(thin, image, length) == 0, "the thin call changes the image otherwise");
    zhav_tries_left(image, length);
    free(image);
    free(before);
    free(thin);
}

/* The number is that of a step; one under 9 comes after the checks that both calls make. */
static void reason_call(size_t length, uint8_t fuses, ZhavVolatile half, int number) {
    uint8_t *image = block(length), *before = copy(image, length);
    ZhavWhy why = zhav_reason(image, length, fuses, half);
    gave(REASON, why.refusal, number < ZHAV_STATE ? ZHAV_ACCEPTED : number);
    need(why.refusal ? why.reason == ZHAV_UNANSWERED : why.reason <= ZHAV_FUS_LOW,
         "a reason that the header doesn't name");
    need(memcmp(image, before, length) == 0, "asking changes the image");
    free(image);
    free(before);
}

static void run_call(size_t length, uint8_t fuses, ZhavVolatile half, const uint8_t *steps,
                     size_t count, size_t room, int number) {
    uint8_t *image = block(length), *before = copy(image, length);
    uint8_t *answers = block(room), *old = copy(answers, room);
    ZhavRan ran = zhav_run(image, length, fuses, half, steps, count, answers, room);
    gave(RUN, ran.refusal, number);
    if (ran.refusal >= 9) {
        need(ran.done == 0, "a run refused beforehand does steps");
        need(same_half(ran.half, half) && ran.fuses == fuses, "a refused run moves");
        need(memcmp(image, before, length) == 0, "a refused run changes the image");
    }
    need(ran.done <= count && ran.done <= room, "a run does more than its steps");
    need(memcmp(answers + ran.done, old + ran.done, room - ran.done) == 0,
         "a run writes answers to steps that it didn't do");
    free(image);
    free(before);
    free(answers);
    free(old);
}

static ZhavMade made_by(int act, uint8_t fus, uint8_t byte, size_t n, uint8_t *out, size_t room) {
    switch (act) {
    case RESET: return zhav_reset(fus, out, room);
    case WALK: return zhav_walk(fus, n, out, room);
    case SHOW16: return zhav_show16(fus, (uint16_t)n, out, room);
    case SHOW32: return zhav_show32(fus, (uint32_t)n, out, room);
    case PROGRAM: return zhav_program(fus, byte, out, room);
    case BLOW: return zhav_blow(fus, out, room);
    default: return zhav_open(fus, (uint16_t)n, byte, out, room);
    }
}

static void act_call(int act, uint8_t byte, size_t n, size_t room, int number) {
    uint8_t *out = block(room), *before = copy(out, room), *again = copy(out, room);
    uint8_t fus = (uint8_t)chance(256);
    ZhavMade made = made_by(act, fus, byte, n, out, room);
    gave(act, made.refusal, number);
    need(made.count <= room, "an act has more steps than room");
    need(made.refusal == 0 || made.count == 0, "a refused act has steps");
    need(memcmp(out + made.count, before + made.count, room - made.count) == 0,
         "an act writes behind its steps");
    made_by(act, fus != 0, act == PROGRAM ? byte != 0 : byte, n, again, room);
    need(memcmp(out, again, room) == 0, "a level over 1 isn't high");
    free(out);
    free(before);
    free(again);
}

/* A sound session, or as much of it as the length has, but for one byte. */
static uint8_t *file_of(size_t length, size_t at, uint8_t byte) {
    uint8_t *file = block(length);
    size_t steps = length - 181;
    const size_t head[][2] = {{0, 174}, {1, 0},       {176, 1},       {177, 0},
                              {178, 7}, {179, steps}, {180, steps >> 8}};
    for (size_t i = 0; i < 7; i++)
        if (head[i][0] < length) file[head[i][0]] = (uint8_t)head[i][1];
    if (at < length) file[at] = byte;
    return file;
}

static void file_calls(size_t length, size_t room, size_t at, uint8_t byte, int card_number,
                       int session_number) {
    uint8_t *file = file_of(length, at, byte), *memory = block(room), *before = copy(memory, room);
    ZhavCard card = zhav_open_card(file, length, memory, room);
    gave(CARD, card.refusal, card_number);
    need(card.refusal == 0 || memcmp(memory, before, room) == 0, "a refused file is read");
    memcpy(memory, before, room);
    ZhavSession session = zhav_open_session(file, length, memory, room);
    gave(SESSION, session.refusal, session_number);
    need(session.refusal == 0 || memcmp(memory, before, room) == 0, "a refused session is read");
    need(session.first <= length && session.steps <= length - session.first,
         "the steps reach out of the session");
    free(file);
    free(memory);
    free(before);
}

enum { VCC = ZHAV_VCC, RST = ZHAV_RST, CLK = ZHAV_CLK, PGM = ZHAV_PGM, FUS = ZHAV_FUS };

/* A step from these lines and flags, and its number; below those refused stands a neighbour. */
static const struct {
    uint8_t lines, flags, n, number;
} step_cases[] = {
    {0, 0, 64, ZHAV_STEP_BYTE},
    {VCC, 0, 255, ZHAV_STEP_BYTE},
    {63 & ~VCC, 0, 63 & ~VCC, ZHAV_ACCEPTED},
    {0, 0, VCC | RST, ZHAV_LINES_DIFFER},
    {0, 0, VCC, ZHAV_ACCEPTED},
    {VCC | CLK | PGM, ZHAV_PROGRAMMING, VCC | RST | CLK | PGM, ZHAV_CHANGE_IN_PROGRAMMING},
    {VCC | RST | CLK, ZHAV_PROGRAMMING, VCC | CLK, ZHAV_CHANGE_IN_PROGRAMMING},
    {VCC | CLK, ZHAV_PROGRAMMING, VCC | CLK | FUS, ZHAV_CHANGE_IN_PROGRAMMING},
    {VCC | CLK, 0, VCC | CLK | FUS, ZHAV_ACCEPTED},
    {VCC | CLK | PGM, ZHAV_PROGRAMMING, VCC | PGM, ZHAV_CLK_FALLS_UNDER_PGM},
    {VCC | CLK, ZHAV_PROGRAMMING, VCC, ZHAV_ACCEPTED},
    {VCC | RST | CLK, 0, VCC | CLK, ZHAV_RST_FALLS_UNDER_CLK},
    {RST | CLK, 0, CLK, ZHAV_ACCEPTED},
    {VCC | CLK, 0, VCC | CLK | PGM, ZHAV_PGM_RISES_UNDER_CLK},
    {CLK, 0, CLK | PGM, ZHAV_ACCEPTED},
    {CLK, 0, VCC | CLK, ZHAV_VCC_RISES},
    {PGM, 0, VCC | PGM, ZHAV_VCC_RISES},
    {64, 0, 0, ZHAV_STATE},
    {VCC | CLK | PGM, 0, VCC | CLK, ZHAV_STATE},
};

/* A file of this length, one byte of it, the room for the memory, and the number as a card file
 * and as a session. NONE: no byte is changed. */
enum { NONE = 5000 };
static const struct {
    size_t length, at;
    uint8_t byte;
    size_t room;
    int card, session;
} file_cases[] = {
    {181, NONE, 0, 173, ZHAV_MEMORY, ZHAV_MEMORY},
    {181, NONE, 0, 174, ZHAV_FILE_LENGTH, ZHAV_ACCEPTED},
    {178, NONE, 0, 174, ZHAV_FILE_SHORT, ZHAV_FILE_SHORT},
    {179, NONE, 0, 174, ZHAV_ACCEPTED, ZHAV_SESSION_SHORT},
    {181, 0, 173, 174, ZHAV_FIRST_COUNT, ZHAV_FIRST_COUNT},
    {181, 177, 1, 174, ZHAV_SECOND_COUNT, ZHAV_SECOND_COUNT},
    {181, 178, 8, 174, ZHAV_FUSES, ZHAV_FUSES},
    {180, NONE, 0, 174, ZHAV_FILE_LENGTH, ZHAV_SESSION_SHORT},
    {4278, NONE, 0, 174, ZHAV_FILE_LENGTH, ZHAV_STEP_COUNT},
    {4277, NONE, 0, 174, ZHAV_FILE_LENGTH, ZHAV_ACCEPTED},
    {181, 179, 1, 174, ZHAV_FILE_LENGTH, ZHAV_FILE_LENGTH},
};

/* An act, its byte, its number, the room for its steps, and the refusal. */
static const struct {
    int act;
    uint8_t byte;
    size_t n, room;
    int number;
} act_cases[] = {
    {RESET, 0, 0, 1, ZHAV_BUFFER},      {RESET, 0, 0, 2, ZHAV_ACCEPTED},
    {WALK, 0, 1520, 0, ZHAV_WALK},      {WALK, 0, SIZE_MAX, 4096, ZHAV_WALK},
    {WALK, 0, 1519, 3037, ZHAV_BUFFER}, {WALK, 0, 1519, 3038, ZHAV_ACCEPTED},
    {SHOW16, 0, 1, 48, ZHAV_BUFFER},    {SHOW16, 0, 1, 49, ZHAV_ACCEPTED},
    {SHOW32, 0, 1, 96, ZHAV_BUFFER},    {SHOW32, 0, 1, 97, ZHAV_ACCEPTED},
    {PROGRAM, 1, 0, 5, ZHAV_BUFFER},    {PROGRAM, 1, 0, 6, ZHAV_ACCEPTED},
    {BLOW, 0, 0, 7, ZHAV_BUFFER},       {BLOW, 0, 0, 8, ZHAV_ACCEPTED},
    {OPEN, 0, 0, 0, ZHAV_NO_TRY},       {OPEN, 1, 0, 236, ZHAV_BUFFER},
    {OPEN, 1, 0, 237, ZHAV_ACCEPTED},
};

#define COUNT(cases) (sizeof(cases) / sizeof(cases)[0])

static void known_cases(void) {
    for (size_t i = 0; i < COUNT(step_cases); i++) {
        ZhavVolatile half = {step_cases[i].lines, 0, step_cases[i].flags};
        uint8_t n = step_cases[i].n, number = step_cases[i].number;
        step_calls(ZHAV_IMAGE_BYTES, 7, half, n, number);
        reason_call(ZHAV_IMAGE_BYTES, 7, half, number);
        run_call(ZHAV_IMAGE_BYTES, 7, half, &n, 1, 1, number);
    }
    for (size_t i = 0; i < COUNT(file_cases); i++)
        file_calls(file_cases[i].length, file_cases[i].room, file_cases[i].at, file_cases[i].byte,
                   file_cases[i].card, file_cases[i].session);
    for (size_t i = 0; i < COUNT(act_cases); i++)
        act_call(act_cases[i].act, act_cases[i].byte, act_cases[i].n, act_cases[i].room,
                 act_cases[i].number);
    const uint8_t steps[ZHAV_MOST_STEPS + 1] = {0};
    const size_t runs[][3] = {{4096, 4096, ZHAV_ACCEPTED},
                              {4096, 4095, ZHAV_ANSWERS_SHORT},
                              {4097, 4095, ZHAV_RUN_LONG}};
    for (size_t i = 0; i < COUNT(runs); i++)
        run_call(ZHAV_IMAGE_BYTES, 7, zhav_fresh(), steps, runs[i][0], runs[i][1], (int)runs[i][2]);
}

/* Any word, or one just inside or outside a bound. */
static uint32_t word(uint32_t bound) { return chance(chance(2) ? bound : UINT32_MAX); }

/* The first number that the order of the checks gives; a half is made up by the library's own
 * word. */
static int expected(size_t length, uint8_t fuses, ZhavVolatile half) {
    uint8_t made_up = zhav_flags(half).refusal;
    gave(FLAGS, made_up, ANY);
    if (length != ZHAV_IMAGE_BYTES) return ZHAV_MEMORY;
    if (fuses > 7) return ZHAV_FUSES;
    return made_up ? made_up : ANY;
}

static void chance_calls(void) {
    const size_t lengths[] = {0, 1, 12, 13, 173, 174, 175, 348};
    const size_t files[] = {0, 1, 2, 178, 179, 180, 181, 182, 190, 4276, 4277, 4278};
    size_t length = chance(3) ? ZHAV_IMAGE_BYTES : lengths[chance(8)];
    uint8_t fuses = (uint8_t)chance(chance(3) ? 8 : 256);
    ZhavVolatile half = zhav_fresh();
    if (chance(4)) half.lines = word(70), half.address = word(1530), half.flags = word(130);
    int number = expected(length, fuses, half);
    /* Any byte, or one line turned over. */
    uint8_t n = (uint8_t)(chance(2) ? chance(256) : half.lines ^ 1u << chance(6));
    step_calls(length, fuses, half, n, number);
    reason_call(length, fuses, half, number);

    size_t count = chance(chance(8) ? 9 : 5000), room = chance(4) ? count : chance(5000);
    if (number == ANY && count > ZHAV_MOST_STEPS) number = ZHAV_RUN_LONG;
    if (number == ANY && room < count) number = ZHAV_ANSWERS_SHORT;
    uint8_t *steps = block(count);
    run_call(length, fuses, half, steps, count, room, number);
    free(steps);

    uint8_t byte = (uint8_t)chance(256);
    size_t far = chance(2) ? chance(1600) : (size_t)chance(UINT32_MAX) << 20;
    for (int act = 0; act < ACTS; act++)
        act_call(act, byte, far, chance(chance(2) ? 300 : 4096), ANY);
    size_t at = chance(400);
    file_calls(files[chance(12)], length, at, byte, ANY, ANY);
}

static int named(int call, int number) {
    return memchr(calls[call].gives, number, sizeof calls[call].gives) != NULL;
}

/* How often the calls together gave a number; each for which it is named has, and no other. */
static unsigned long times(int number) {
    unsigned long sum = 0;
    for (int call = 0; call < CALLS; call++) {
        unsigned long here = given[call][number];
        if (number != 0 && named(call, number) != (here > 0)) {
            const char *what = here > 0 ? "gives" : "never gives";
            fprintf(stderr, "hostile: %s %s %d\n", calls[call].name, what, number);
            exit(1);
        }
        need(number != 0 || here > 0, "a call is never accepted");
        sum += here;
    }
    return sum;
}

int main(void) {
    known_cases();
    for (int round = 0; round < 10000; round++) chance_calls();
    int refusals = 0;
    printf("accepted %lu", times(0));
    for (int number = 1; number < 256; number++) {
        unsigned long sum = times(number);
        if (sum > 0) printf(", %d: %lu", number, sum);
        refusals += sum > 0;
    }
    need(refusals == 21, "a refusal of the header is named for no call");
    printf("\n%d refusals, each from every call that gives it\n", refusals);
    return 0;
}
