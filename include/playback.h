/*
 * The verified playback scheduler: film files, read schedules, a day's bookings and rounds.
 * C11 or C++11 on x86-64 (System V). Link with liblent.a, which `make lib` writes to target/staticlib.
 *
 * Units: a round is the unit of time; sizes, reserves, memory and what is held are in bytes, the disk limit is in bytes per
 * round. Rounds, films' places and list places count from 0.
 *
 * Questions: each call puts its questions in the order stated at the function. The first "no" is the refusal; 0 is accepted.
 * "1-7" are those of the film file: 1, 2, 1, then 3 and 4 for each entry, 1, 5, 1, 6, 7. Any bytes, numbers and lists are legal
 * input, and every call ends.
 *
 * Effects: a refusal changes nothing lent, except that 22 leaves the sheet of the bookings as they stand. An accepted call
 * leaves untouched every lent place beyond its answer. What an answer does not give is 0.
 *
 * Lists: a pointer and the number of its values; NULL with 0 is legal. A list that a call writes overlaps no other list of that
 * call, and nobody else reads or writes it meanwhile. The library keeps no pointer and no state: calls may run on any threads at
 * once, each on a stack of 256 KiB.
 *
 * A day is lent as a struct by value; the answer holds the day after the call, which after a refusal is the day before it. The
 * bookings that stand are the first `count` records. The sheet has three lists by round: films open, sum of reserves, sum of
 * bytes held; each may be longer than the day.
 */
#ifndef PLAYBACK_H
#define PLAYBACK_H

#include <assert.h>
#include <stddef.h>
#include <stdint.h>

#ifdef __cplusplus
extern "C" {
#endif

/* ---- Limits */

#define PLAYBACK_MAX_FILMS 64                       /* films in a file */
#define PLAYBACK_MAX_ROUNDS 4096                    /* rounds of a film */
#define PLAYBACK_MAX_SIZE 16777215                  /* bytes that a film sends in one round */
#define PLAYBACK_MAX_PREFETCH 256                   /* pre-fetch rounds */
#define PLAYBACK_MAX_RESERVE 16777215               /* reserve, bytes per round */
#define PLAYBACK_MAX_DAY 86400                      /* rounds of a day */
#define PLAYBACK_MAX_DISK UINT64_C(4294967295)      /* disk limit, bytes per round */
#define PLAYBACK_MAX_MEMORY UINT64_C(1099511627776) /* memory limit, bytes */
#define PLAYBACK_MAX_BOOKINGS 256                   /* bookings of a day */

/* ---- Refusals */

enum PlaybackRefusal {
    PLAYBACK_ACCEPTED = 0,
    PLAYBACK_REFUSED_TRUNCATED = 1,    /* the film file ends before one of its parts */
    PLAYBACK_REFUSED_FILM_COUNT = 2,   /* the number of films is not 1 to 64 */
    PLAYBACK_REFUSED_FILM_ORDER = 3,   /* a film's number does not exceed the one before */
    PLAYBACK_REFUSED_ROUND_COUNT = 4,  /* a film's round count is not 1 to 4,096 */
    PLAYBACK_REFUSED_SIZE_COUNT = 5,   /* the count of sizes is not the sum of the round counts */
    PLAYBACK_REFUSED_SIZE_BOUND = 6,   /* a size exceeds 16,777,215 bytes */
    PLAYBACK_REFUSED_TRAILING = 7,     /* bytes follow the last size */
    PLAYBACK_REFUSED_NO_FILM = 8,      /* the film is not in the file */
    PLAYBACK_REFUSED_PREFETCH = 9,     /* the pre-fetch rounds exceed 256 */
    PLAYBACK_REFUSED_RESERVE = 10,     /* the reserve exceeds 16,777,215 bytes */
    PLAYBACK_REFUSED_NO_ROOM = 11,     /* a lent list is too short */
    PLAYBACK_REFUSED_NO_SCHEDULE = 12, /* no schedule exists */
    PLAYBACK_REFUSED_CAP = 13,         /* the cap is below the film's largest size */
    PLAYBACK_REFUSED_DAY_ROUNDS = 14,  /* the day's rounds are not 1 to 86,400, or its current round is past them */
    PLAYBACK_REFUSED_DAY_LIMITS = 15,  /* the disk or memory limit is too large */
    PLAYBACK_REFUSED_UNSOUND = 16,     /* the list of bookings is not sound */
    PLAYBACK_REFUSED_LIST_FULL = 17,   /* the list of bookings has no place left */
    PLAYBACK_REFUSED_NAME_TAKEN = 18,  /* the name is taken */
    PLAYBACK_REFUSED_NO_NAME = 19,     /* the name is not in the list */
    PLAYBACK_REFUSED_NO_CAB = 20,      /* no cab is named */
    PLAYBACK_REFUSED_WINDOW = 21,      /* the window does not lie in the day */
    PLAYBACK_REFUSED_NO_START = 22,    /* no start in the window fits */
    PLAYBACK_REFUSED_DAY_OVER = 23,    /* the day is over */
    PLAYBACK_REFUSED_COMMAND = 24,     /* not a call */
    PLAYBACK_REFUSED_FILE_SIZE = 25    /* the program's film file exceeds 65,536 bytes */
};

/*
 * 14 also where `now` exceeds the day's rounds. 15: the limits exceed PLAYBACK_MAX_DISK or PLAYBACK_MAX_MEMORY. 16: sound are at
 * most 256 records, within the list, with different names, each passing 8, 9, 10, 20 and 12 and ending in the day, that keep
 * both limits and give no cab two films in any round. 21: not now <= first <= last, or a film that starts in `last` ends past the
 * day. 24 is the answer of a journal's entry that is no call. 25 is asked by the program `hall` alone.
 */

/* ---- What the calls are lent and given */

/* A record of the list of bookings. */
typedef struct PlaybackBooking {
    uint32_t name;     /* chosen by the caller; 0 is a name */
    uint16_t film;     /* the film's number */
    uint32_t start;    /* the round in which it starts */
    uint16_t prefetch; /* pre-fetch rounds: it shows from round start + prefetch on */
    uint32_t reserve;  /* bytes that it may read in a round */
    uint64_t cabs;     /* the cabs that it shows on, one bit each */
} PlaybackBooking;

/* A booking as it is asked for. Any numbers are legal. */
typedef struct PlaybackRequest {
    uint32_t name;
    uint64_t film;
    uint64_t prefetch;
    uint64_t reserve;
    uint64_t cabs;
    uint64_t first; /* the first round in which it may start */
    uint64_t last;  /* the last one */
} PlaybackRequest;

/* A day. */
typedef struct PlaybackDay {
    uint64_t rounds; /* number of rounds */
    uint64_t disk;   /* disk limit, bytes per round */
    uint64_t memory; /* memory limit, bytes */
    uint64_t now;    /* the current round */
    uint64_t count;  /* how many bookings stand */
} PlaybackDay;

/* A line of a round's report. */
typedef struct PlaybackLine {
    uint32_t name; /* the booking's name */
    uint64_t read; /* bytes to read */
    uint64_t send; /* bytes to send */
    uint64_t held; /* bytes held after reading and before sending */
} PlaybackLine;

/* ---- What they answer; `refusal` is 0 or a number of enum PlaybackRefusal */

typedef struct PlaybackReply {
    uint32_t refusal;
    uint64_t start;  /* of a booking: the round in which it starts */
    uint64_t films;  /* of a played round: how many bookings are open */
    uint64_t cabs;   /* of a played round: how many cabs it shows on */
    PlaybackDay day; /* the day after the call */
} PlaybackReply;

typedef struct PlaybackFilm {
    uint32_t refusal;
    uint32_t more;   /* 1: an entry; 0: no more */
    uint32_t number; /* the film's number */
    uint32_t rounds; /* its number of rounds */
} PlaybackFilm;

typedef struct PlaybackFigures {
    uint32_t refusal;
    uint64_t total;   /* bytes */
    uint64_t largest; /* bytes of its largest round */
    uint64_t mean;    /* total divided by the rounds, rounded down */
} PlaybackFigures;

typedef struct PlaybackSize {
    uint32_t refusal;
    uint32_t exists; /* 1: the film has that round */
    uint64_t bytes;
} PlaybackSize;

typedef struct PlaybackReserve {
    uint32_t refusal;
    uint64_t bytes; /* bytes per round */
} PlaybackReserve;

typedef struct PlaybackReplayed {
    uint32_t refusal;
    uint64_t entries; /* entries of the journal carried out */
    uint64_t words;   /* words of the log written */
    PlaybackDay day;  /* the day after them; all 0 where the opening is refused */
} PlaybackReplayed;

/* ---- The film file */

/* Is it a film file? 0, or the refusal. Questions: 1-7. */
uint32_t playback_verdict(const uint8_t *file, size_t file_length);

/* The film reader's entry at a position; past the last one there is no more. Questions: 1-7. */
PlaybackFilm playback_film(const uint8_t *file, size_t file_length, uint64_t position);

/* A film's summary. Questions: 1-7, 8. */
PlaybackFigures playback_summary(const uint8_t *file, size_t file_length, uint64_t film);

/* The bytes that a film sends in a round of its own. Questions: 1-7, 8. */
PlaybackSize playback_round_size(const uint8_t *file, size_t file_length, uint64_t film, uint64_t round);

/* ---- Schedules */

/*
 * The just-in-time schedule of a film with p = `prefetch` pre-fetch rounds and a reserve: the bytes read by the end of each of
 * its p + n rounds, where n are the film's own, written to the first p + n places of `totals`.
 * Questions: 1-7, 8, 9, 10, 11 (does `totals` take p + n?), 12. Answer: 0, or the refusal.
 */
uint32_t playback_schedule(const uint8_t *file, size_t file_length, uint64_t film, uint64_t prefetch, uint64_t reserve,
                           uint64_t *totals, size_t totals_length);

/* The smallest reserve with a schedule that never holds more than `cap` bytes. Questions: 1-7, 8, 9, 13. */
PlaybackReserve playback_least_reserve(const uint8_t *file, size_t file_length, uint64_t film, uint64_t prefetch, uint64_t cap);

/* ---- A day */

/*
 * Opens a day of `rounds`, `disk` and `memory` in round 0 with no bookings, and zeroes its rounds' places of the sheet. `day` is
 * what stood before; a refusal gives it back. Questions: 14, 15, 11 (has every sheet list `rounds` places?).
 */
PlaybackReply playback_open(PlaybackDay day, uint64_t rounds, uint64_t disk, uint64_t memory, uint64_t *opens,
                            size_t opens_length, uint64_t *reserves, size_t reserves_length, uint64_t *helds,
                            size_t helds_length);

/*
 * Gives a booking the first start from `first` to `last` at which it fits, appends its record and works out the sheet.
 * Questions: 1-7, 14, 15, 11 (has every sheet list the day's rounds?), 16, 18, 8, 9, 10, 20, 12, 21, 17, 22.
 */
PlaybackReply playback_book(const uint8_t *file, size_t file_length, PlaybackDay day, PlaybackBooking *records,
                            size_t records_length, PlaybackRequest request, uint64_t *opens, size_t opens_length,
                            uint64_t *reserves, size_t reserves_length, uint64_t *helds, size_t helds_length);

/*
 * Takes the booking of a name out: the records after it move up, the place freed is zeroed; works out the sheet.
 * Questions: 1-7, 14, 15, 11 (as for a booking), 16, 19.
 */
PlaybackReply playback_drop(const uint8_t *file, size_t file_length, PlaybackDay day, PlaybackBooking *records,
                            size_t records_length, uint32_t name, uint64_t *opens, size_t opens_length, uint64_t *reserves,
                            size_t reserves_length, uint64_t *helds, size_t helds_length);

/*
 * Plays the current round: writes one report line for each open booking, in list order, gives how many they are and how many
 * cabs are served, and `now` rises by one. Questions: 1-7, 14, 15, 16, 23, 11 (does the report take every open booking?).
 */
PlaybackReply playback_play(const uint8_t *file, size_t file_length, PlaybackDay day, const PlaybackBooking *records,
                            size_t records_length, PlaybackLine *report, size_t report_length);

/* ---- Replay */

#define PLAYBACK_JOURNAL_ENTRY 8 /* words of a journal's entry: its kind and seven more */
#define PLAYBACK_JOURNAL_BOOK 1  /* name, film, prefetch, reserve, cabs, first, last */
#define PLAYBACK_JOURNAL_DROP 2  /* name; the others are not looked at */
#define PLAYBACK_JOURNAL_PLAY 3  /* the report's length; the others are not looked at */
#define PLAYBACK_LOG_ANSWER 3    /* words of the log for each entry: refusal or 0, and two values */
#define PLAYBACK_LOG_LINE 4      /* words of the log for a report line: name, read, send, held */

/*
 * Opens a day and carries out a journal's entries in order, as the calls above would. Each writes three words to the log: a
 * booking 0, its start, 0; a drop 0, 0, 0; a played round 0, films open, cabs served, and then four words for each open film; a
 * refused call its refusal, 0, 0. An entry of another kind or with a name of 2^32 or more is refused 24 and changes nothing.
 * Words after the last whole entry are not looked at. It stops before the first entry whose words the log does not take; log
 * places from there on are untouched. Questions of the opening: 14, 15, 11; refused, it changes nothing lent.
 */
PlaybackReplayed playback_replay(const uint8_t *file, size_t file_length, uint64_t rounds, uint64_t disk, uint64_t memory,
                                 PlaybackBooking *records, size_t records_length, const uint64_t *journal,
                                 size_t journal_length, uint64_t *log, size_t log_length, uint64_t *opens,
                                 size_t opens_length, uint64_t *reserves, size_t reserves_length, uint64_t *helds,
                                 size_t helds_length);

/* ---- Layout, as the library has it */

static_assert(sizeof(size_t) == 8, "a length has 64 bits");
static_assert(sizeof(PlaybackBooking) == 32, "PlaybackBooking");
static_assert(offsetof(PlaybackBooking, name) == 0 && offsetof(PlaybackBooking, film) == 4, "PlaybackBooking");
static_assert(offsetof(PlaybackBooking, start) == 8 && offsetof(PlaybackBooking, prefetch) == 12, "PlaybackBooking");
static_assert(offsetof(PlaybackBooking, reserve) == 16 && offsetof(PlaybackBooking, cabs) == 24, "PlaybackBooking");
static_assert(sizeof(PlaybackRequest) == 56 && offsetof(PlaybackRequest, film) == 8, "PlaybackRequest");
static_assert(offsetof(PlaybackRequest, last) == 48, "PlaybackRequest");
static_assert(sizeof(PlaybackDay) == 40 && offsetof(PlaybackDay, count) == 32, "PlaybackDay");
static_assert(sizeof(PlaybackLine) == 32 && offsetof(PlaybackLine, read) == 8, "PlaybackLine");
static_assert(sizeof(PlaybackReply) == 72 && offsetof(PlaybackReply, start) == 8, "PlaybackReply");
static_assert(offsetof(PlaybackReply, day) == 32, "PlaybackReply");
static_assert(sizeof(PlaybackFilm) == 16 && offsetof(PlaybackFilm, rounds) == 12, "PlaybackFilm");
static_assert(sizeof(PlaybackFigures) == 32 && offsetof(PlaybackFigures, total) == 8, "PlaybackFigures");
static_assert(sizeof(PlaybackSize) == 16 && offsetof(PlaybackSize, bytes) == 8, "PlaybackSize");
static_assert(sizeof(PlaybackReserve) == 16 && offsetof(PlaybackReserve, bytes) == 8, "PlaybackReserve");
static_assert(sizeof(PlaybackReplayed) == 64 && offsetof(PlaybackReplayed, day) == 24, "PlaybackReplayed");

#ifdef __cplusplus
}
#endif

#endif
