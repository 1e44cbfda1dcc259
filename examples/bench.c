/* A whole bench: a card is powered, opened, spent from, refused and read out, and asked why
 * nothing was spent. */
#include "zhavdurgon.h"

#include <stdio.h>
#include <stdlib.h>
#include <string.h>

/* The card as the bench keeps it, and the answers to what it was given last. */
typedef struct {
    uint8_t image[ZHAV_IMAGE_BYTES], fuses;
    ZhavVolatile half;
    size_t given;
    uint8_t answers[ZHAV_MOST_STEPS];
} Card;

static void need(int condition, const char *what) {
    if (!condition) {
        fprintf(stderr, "bench: %s\n", what);
        exit(1);
    }
}

/* One run. As the bench keeps both halves, any number of runs may follow. */
static size_t run(Card *card, const uint8_t *steps, size_t count) {
    ZhavRan ran = zhav_run(card->image, sizeof card->image, card->fuses, card->half, steps, count,
                           card->answers, sizeof card->answers);
    need(ran.refusal == ZHAV_ACCEPTED, "a run was refused");
    card->half = ran.half;
    card->fuses = ran.fuses;
    card->given += ran.done;
    return ran.done;
}

static uint8_t steps[ZHAV_MOST_STEPS];

static size_t done(Card *card, ZhavMade made) {
    need(made.refusal == ZHAV_ACCEPTED, "an act was refused");
    return run(card, steps, made.count);
}

static void go_to(Card *card, size_t address) {
    if (card->half.address > address) done(card, zhav_reset(0, steps, sizeof steps));
    done(card, zhav_walk(0, address - card->half.address, steps, sizeof steps));
}

/* Writes a bit of the application zone to 0. Why nothing would come of it is asked before the
 * last step, CLK's fall. */
static uint8_t spend(Card *card, size_t address) {
    go_to(card, address);
    ZhavMade made = zhav_program(0, 0, steps, sizeof steps);
    need(made.refusal == ZHAV_ACCEPTED, "an act was refused");
    run(card, steps, made.count - 1);
    ZhavWhy why = zhav_reason(card->image, sizeof card->image, card->fuses, card->half);
    need(why.refusal == ZHAV_ACCEPTED, "the reason was refused");
    run(card, steps + made.count - 1, 1);
    return why.reason;
}

/* The pin shows the bit of the address that each clock arrives at. */
static void read_zone(Card *card, size_t first, size_t bytes, uint8_t *out) {
    go_to(card, first - 1);
    done(card, zhav_walk(0, 8 * bytes, steps, sizeof steps));
    memset(out, 0, bytes);
    for (size_t bit = 0; bit < 8 * bytes; bit++)
        out[bit / 8] |= (uint8_t)(card->answers[2 * bit + 1] << (7 - bit % 8));
}

int main(void) {
    need(zhav_version() == ZHAV_VERSION, "the library and the header differ in version");
    /* A card whose code is 0xC0DE, ISS and EC_EN blown, its application zone unspent. */
    Card card = {.fuses = ZHAV_MF, .half = zhav_fresh()};
    memset(card.image, 255, sizeof card.image);
    card.image[10] = 0xC0;
    card.image[11] = 0xDE;

    const uint8_t power[] = {ZHAV_IO, ZHAV_IO | ZHAV_VCC};
    run(&card, power, sizeof power);

    /* A wrong code costs a try and opens nothing. */
    done(&card, zhav_open(0, 0xC0DF, card.image[12], steps, sizeof steps));
    need(!zhav_flags(card.half).sv, "a wrong code opened the card");
    printf("wrong code: %u tries left\n", zhav_tries_left(card.image, sizeof card.image));
    uint8_t reason = spend(&card, 184);
    need(reason == ZHAV_SV_MISSING && card.image[23] == 255, "a closed card was spent from");
    printf("nothing spent: reason %u, SV missing\n", reason);
    done(&card, zhav_open(0, 0xC0DE, card.image[12], steps, sizeof steps));
    need(zhav_flags(card.half).sv, "the code didn't open the card");
    printf("opened: %u tries left\n", zhav_tries_left(card.image, sizeof card.image));

    /* Four units are spent: bits of the application zone go from 1 to 0. */
    for (size_t unit = 0; unit < 4; unit++)
        need(spend(&card, 184 + unit) == ZHAV_RIGHT_IS_THERE, "a unit can't be spent");

    /* Two lines at once are refused, and nothing changes. */
    Card before;
    memcpy(&before, &card, sizeof card);
    ZhavTold told = zhav_step_at(card.image, sizeof card.image, card.fuses, &card.half,
                                 ZHAV_VCC | ZHAV_IO | ZHAV_RST | ZHAV_PGM);
    need(told.refusal == ZHAV_LINES_DIFFER, "two lines at once were accepted");
    need(memcmp(&before, &card, sizeof card) == 0, "a refused step changed the card");
    printf("refused: %u\n", told.refusal);

    uint8_t zone[128];
    read_zone(&card, 176, sizeof zone, zone);
    printf("application zone: %02x %02x %02x .. %02x\n", zone[0], zone[1], zone[2], zone[127]);
    need(memcmp(zone, card.image + 22, sizeof zone) == 0, "the pin shows another zone");

    /* Round the whole address counter and on, far over what one run may have. */
    for (int turn = 0; turn < 3; turn++) {
        done(&card, zhav_walk(0, 1519, steps, sizeof steps));
        done(&card, zhav_walk(0, 1, steps, sizeof steps));
    }
    printf("steps given: %zu, address %u\n", card.given, card.half.address);
    need(fflush(stdout) == 0, "standard output cannot be written");
    return 0;
}
