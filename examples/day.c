/*
 * A day of document 01 from opening to end: what the film sends and needs, the bookings, and every round's report. Each call is
 * answered by a line as the program `hall` prints it.
 */
#include "playback.h"

#include <inttypes.h>
#include <stdio.h>

enum { ROUNDS = 20, PLACES = 64, PREFETCH = 1, RESERVE = 6 };

/* Film 1, of sizes 8, 8, 8, 2, 6, 4, in the layout of a film file. */
static const uint8_t file[] = {
    1, 0,                                                                         /* one film */
    1, 0, 6, 0,                                                                   /* number 1, 6 rounds */
    6, 0, 0, 0,                                                                   /* 6 sizes */
    8, 0, 0, 0, 8, 0, 0, 0, 8, 0, 0, 0, 2, 0, 0, 0, 6, 0, 0, 0, 4, 0, 0, 0,
};

/* What the library is lent: a list of bookings, a sheet, a report. It keeps none of it. */
static PlaybackBooking records[PLACES];
static uint64_t opens[ROUNDS], reserves[ROUNDS], helds[ROUNDS];
static PlaybackLine report[PLACES];

static void print_film(void)
{
    for (uint64_t position = 0;; position++) {
        PlaybackFilm film = playback_film(file, sizeof file, position);
        if (film.refusal != PLAYBACK_ACCEPTED || film.more == 0) {
            break;
        }
        PlaybackFigures figures = playback_summary(file, sizeof file, film.number);
        printf("film %" PRIu32 ": %" PRIu32 " rounds, %" PRIu64 " bytes, largest %" PRIu64 ", mean %" PRIu64 "\n", film.number,
               film.rounds, figures.total, figures.largest, figures.mean);
    }
    PlaybackReserve least = playback_least_reserve(file, sizeof file, 1, PREFETCH, 12);
    printf("least reserve with 12 bytes of memory: %" PRIu64 "\n", least.bytes);
    uint64_t totals[PREFETCH + 6];
    if (playback_schedule(file, sizeof file, 1, PREFETCH, RESERVE, totals, PREFETCH + 6) == PLAYBACK_ACCEPTED) {
        printf("read by the end of each round:");
        for (size_t t = 0; t < PREFETCH + 6; t++) {
            printf(" %" PRIu64, totals[t]);
        }
        printf("\n");
    }
}

static PlaybackDay open_day(uint64_t disk, uint64_t memory)
{
    PlaybackDay none = {0};
    PlaybackReply reply = playback_open(none, ROUNDS, disk, memory, opens, ROUNDS, reserves, ROUNDS, helds, ROUNDS);
    if (reply.refusal != PLAYBACK_ACCEPTED) {
        printf("NO %" PRIu32 "\n", reply.refusal);
    } else {
        printf("OPENED\n");
    }
    return reply.day;
}

static PlaybackDay book(PlaybackDay day, uint32_t name, uint64_t cabs, uint64_t first, uint64_t last)
{
    PlaybackRequest request = {
        .name = name, .film = 1, .prefetch = PREFETCH, .reserve = RESERVE, .cabs = cabs, .first = first, .last = last};
    PlaybackReply reply = playback_book(file, sizeof file, day, records, PLACES, request, opens, ROUNDS, reserves, ROUNDS, helds,
                                        ROUNDS);
    if (reply.refusal != PLAYBACK_ACCEPTED) {
        printf("NO %" PRIu32 "\n", reply.refusal);
    } else {
        printf("BOOKED %" PRIu32 " %" PRIu64 "\n", name, reply.start);
    }
    return reply.day;
}

static PlaybackDay drop_booking(PlaybackDay day, uint32_t name)
{
    PlaybackReply reply = playback_drop(file, sizeof file, day, records, PLACES, name, opens, ROUNDS, reserves, ROUNDS, helds,
                                        ROUNDS);
    if (reply.refusal != PLAYBACK_ACCEPTED) {
        printf("NO %" PRIu32 "\n", reply.refusal);
    } else {
        printf("DROPPED %" PRIu32 "\n", name);
    }
    return reply.day;
}

static PlaybackDay play(PlaybackDay day)
{
    PlaybackReply reply = playback_play(file, sizeof file, day, records, PLACES, report, PLACES);
    if (reply.refusal != PLAYBACK_ACCEPTED) {
        printf("NO %" PRIu32 "\n", reply.refusal);
        return reply.day;
    }
    printf("ROUND %" PRIu64 " %" PRIu64 " %" PRIu64 "\n", day.now, reply.films, reply.cabs);
    for (uint64_t i = 0; i < reply.films; i++) {
        printf("%" PRIu32 " %" PRIu64 " %" PRIu64 " %" PRIu64 "\n", report[i].name, report[i].read, report[i].send,
               report[i].held);
    }
    return reply.day;
}

int main(void)
{
    print_film();
    PlaybackDay day = open_day(141433, 18);
    day = book(day, 1, 1, 0, 0);
    day = book(day, 2, 2, 0, 10);
    day = book(day, 3, 1, 0, 5);
    day = play(day);
    day = play(day);
    /* Booking 2 makes way; booking 4 shows on both cabs from the round after the last one of booking 1. */
    day = drop_booking(day, 2);
    day = book(day, 4, 3, 2, 10);
    while (day.now < day.rounds) {
        day = play(day);
    }
    play(day);
    return 0;
}
