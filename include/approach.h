/*
 * Approach speeds and stopping distances after RFI TC.SCC SR AV 03 R02 and RFI TC.PATC ST CM 01 M11, proved.
 * Link target/staticlib/libapproach.a, which `make archives` makes.
 *
 * Every function takes every input and ends. It writes nothing but its answer and, in the rows and the sheet's writer,
 * the places or bytes of lent memory that the answer names; on a refusal, nothing there. A list is a pointer and how many
 * elements lie behind it, never NULL, also where there are none; no two lists of one call may overlap where one of them
 * is written.
 *
 * Every answer to inputs begins with `refusal`: 0 where it is accepted, else a number, and all else is 0. Of all that apply it is
 * the first in this order: 1, 2, 3, 4, 5, 6, 12, 7, 8, 9, 10, 11.
 */
#ifndef APPROACH_H
#define APPROACH_H

#include <stdbool.h>
#include <stddef.h>
#include <stdint.h>

#ifdef __cplusplus
extern "C" {
#endif

/* What `refusal` says. Beside each answer's stand the numbers that it can have. */
enum approach_refusal {
    APPROACH_ACCEPTED = 0,
    APPROACH_REFUSED_WEIGHT = 1,        /* braked weight percentage not 45 to 160 in steps of 5 */
    APPROACH_REFUSED_LENGTH = 2,        /* length over 1,000 m */
    APPROACH_REFUSED_SPEED = 3,         /* top speed not 1 to 330; V, V0, a permitted speed over 330; the ramp's V not 1 to 100 */
    APPROACH_REFUSED_TARGET = 4,        /* V0 above V; in a row, above the top speed */
    APPROACH_REFUSED_GRADIENT = 5,      /* gradient not -35 to 35 */
    APPROACH_REFUSED_TIMES = 6,         /* dead time over 2,000, or rise time not 1 to 3,000 */
    APPROACH_REFUSED_SHEET = 7,         /* the bytes are no line sheet, or the fields make none */
    APPROACH_REFUSED_NUMBER = 8,        /* no such signal or stretch */
    APPROACH_REFUSED_HEAD = 9,          /* head beyond the signal */
    /* Brake and slope together decelerate by less than 0.05 m/s2, in a model consulted. A row is refused if any of its speeds is
     * too weak, a query if its V0, the release speed, is: a too weak speed above it ends the climb to the permitted one. */
    APPROACH_REFUSED_WEAK_BRAKE = 10,
    APPROACH_REFUSED_ROOM = 11,         /* the list or buffer is too short for the output */
    APPROACH_REFUSED_COEFFICIENT = 12,  /* a coefficient of the train, or of the ramp, outside its span or step */
};

/* What turning masses make of a slope: the factor of its deceleration, in hundredths, and the gradients that part the three. */
struct approach_inertia {
    uint32_t ki1; /* hundredths, 80 to 120: on gradients above i1 */
    uint32_t ki2; /* hundredths, 80 to 120: on gradients above i2, up to i1 */
    uint32_t ki3; /* hundredths, 80 to 120: on gradients of i2 and below */
    uint32_t i1;  /* per mille, 0 to 35 */
    int32_t i2;   /* per mille, -35 to 0 */
};

/* What document 002 leaves to each train, in its spans and steps. A record that was left 0 is refused by 12. */
struct approach_coefficients {
    uint32_t dt; /* hundredths, 0 to 200: the safety coefficient of the brake's delay */
    uint32_t h;  /* tenths of a second, 0 to 50: the equipment's own delay */
    uint32_t kr; /* hundredths, 30 to 150: how much of the nominal deceleration counts */
    uint32_t cr; /* hundredths, 0 to 10: what a target speed takes off, by V0/V */
    int32_t nc;  /* thousandths for each km/h above vc, -10 to 10: by how much more, or less, of the brake counts */
    uint32_t vc; /* km/h, 0 to 400 in steps of 5 */
    struct approach_inertia inertia;
};

/* Document 002's first values, as approach_first_values gives them: the initialiser of a struct approach_coefficients. */
#define APPROACH_FIRST_VALUES {130, 10, 57, 5, 0, 150, {90, 100, 110, 0, -21}}

/* A train. Of the first two fields the library takes the byte: 0 is no and any other yes, also one that is no value of C's own
 * `bool`, such as the 255 that is TRUE in other languages. */
struct approach_train {
    bool freight;           /* brake type: freight, else passenger */
    bool electropneumatic;  /* whether its electropneumatic brake is working */
    uint32_t braked_weight; /* braked weight percentage, 45 to 160 in steps of 5 */
    uint32_t length;        /* metres, 0 to 1,000; in a query gradients count from the tail, so much behind the head */
    uint32_t top_speed;     /* km/h of the service regime, 1 to 330 */
    struct approach_coefficients coefficients; /* the train's own, or APPROACH_FIRST_VALUES */
};

/* The step model's four distances in millimetres, each raised to the least whole one not below the exact value. None is less
 * than the one before it. */
struct approach_distances {
    uint32_t refusal; /* 1, 2, 3, 4, 5, 12, 10 */
    uint32_t ebi;     /* emergency brake intervention */
    uint32_t sbi;     /* service brake intervention */
    uint32_t w;       /* warning */
    uint32_t p;       /* permitted */
};

/* What a call that writes has written. */
struct approach_written {
    uint32_t refusal; /* of a row 1, 2, 3, 4, 5, 12, 10, 11; of a sheet 7, 11 */
    uint32_t length;  /* how many places of the row, or bytes of the sheet, from the first on; the rest is as it was */
};

/* How far past a closed signal a train gets that is braked there. A faster accepted run, alike in all else, gets further, and
 * neither number is less. */
struct approach_stop {
    uint32_t refusal;  /* 1, 3, 5, 6, 12, 10 */
    uint32_t distance; /* millimetres: at no moment is the train further */
    uint32_t moment;   /* milliseconds: then it is less than 2 mm short of that */
};

/* The three ceilings of a permitted speed, in 120ths of a km/h. */
struct approach_limits {
    uint32_t refusal; /* 3 */
    uint32_t w;       /* of the warning */
    uint32_t sbi;     /* of the service brake intervention */
    uint32_t ebi;     /* of the emergency brake intervention */
};

/*
 * The line sheet: a line in bytes that the caller keeps. Numbers are little-endian, there are no gaps, and the bytes may
 * lie at any address. With n stretches and m signals, each numbered from 0:
 *
 *             at  bytes
 *              0    2    n, 1 to 512
 *              2    2    m, 0 to 64
 *              4    4    where the stretches begin: 20
 *              8    4    where the signals begin: 20 + 6n
 *             12    4    the sheet's length: 20 + 6n + 6m, just as many bytes as are lent
 *             16    4    line end in metres, 1 to 500,000
 *        20 + 6k    4    stretch k: its start in metres
 *        24 + 6k    2    its gradient in per mille, -35 to 35, in two's complement
 *   20 + 6n + 6k    4    signal k: its place in metres
 *   24 + 6n + 6k    2    its overlap in metres
 *
 * The first stretch starts at 0. Starts rise strictly and are below the line end. Places rise strictly and are below the
 * line end, and place + overlap is at most the line end. Bytes or fields that break any of this are refused by 7.
 */
#define APPROACH_MOST_STRETCHES 512
#define APPROACH_MOST_SIGNALS 64

/* How many bytes a sheet of so many stretches and signals has, and how many the longest has. */
#define APPROACH_SHEET_LENGTH(stretches, signals) (20 + 6 * (size_t)(stretches) + 6 * (size_t)(signals))
#define APPROACH_LONGEST_SHEET APPROACH_SHEET_LENGTH(APPROACH_MOST_STRETCHES, APPROACH_MOST_SIGNALS)

/* A stretch of a line sheet. It reaches to the next start or the line end, that point excluded. */
struct approach_stretch {
    uint32_t refusal; /* 7, 8 */
    uint32_t start;   /* metres */
    int32_t gradient; /* per mille, positive uphill */
};

/* A signal of a line sheet. */
struct approach_signal {
    uint32_t refusal; /* 7, 8 */
    uint32_t place;   /* metres */
    uint32_t overlap; /* metres past the signal in which a train may still come to a stop */
};

/* A reading mark, before the stretch of the number `next`. Any number is taken; 0 is a fresh mark. */
struct approach_mark {
    uint32_t next;
};

/* A move of a reading mark. */
struct approach_move {
    uint32_t refusal;          /* 7; the mark is then fresh */
    uint32_t end;              /* 1 past the last stretch, where start and gradient are 0 and the mark stays; else 0 */
    uint32_t start;            /* metres */
    int32_t gradient;          /* per mille, positive uphill */
    struct approach_mark mark; /* for the next move */
};

/* A step of the walk from a signal back to a train's tail, stretch by stretch. */
struct approach_back {
    uint32_t refusal;       /* 2, 7, 8, 9 */
    uint32_t end;           /* 1 past the stretch that holds the tail, where all else is 0; else 0 */
    uint32_t stretch;       /* its number, from 0 along the sheet */
    int32_t gradient;       /* per mille, positive uphill */
    int32_t least;          /* per mille: the least gradient of the steps from 0 to this one */
    uint32_t least_stretch; /* the lowest number among the stretches of these steps that have it */
};

/* What holds the permitted speed of an accepted answer. */
enum approach_answer_mark {
    /* "curve": the next speed's P distance to the release speed is longer than the way to the signal, or its brake is too weak; or,
     * where it is the top speed, that alone */
    APPROACH_MARK_CURVE = 1,
    APPROACH_MARK_RELEASE = 2, /* "release": the release speed, whose own P distance is longer than the way to the signal */
};

/* The `overlap_stretch` of an overlap of 0: no stretch has this number. */
#define APPROACH_NO_STRETCH 65535

/* How fast a train may come up to a closed signal, and how fast it may creep past, and which stretches govern: each has the lowest
 * number among those that hold a point of its span and have the least gradient there; approach_query tells the two spans. Sheets
 * that agree on the signal and on every point of both have the same answer but for these two numbers, which are each sheet's own. */
struct approach_answer {
    uint32_t refusal;         /* 1, 2, 3, 6, 12, 7, 8, 9, 10 */
    uint32_t release;         /* release speed, km/h: braked at the signal from it or less, the train stays within the overlap */
    uint32_t permitted;       /* permitted speed where the head stands, km/h */
    uint32_t mark;            /* an approach_answer_mark: "curve" also where no curve but the top speed ended the climb */
    uint32_t w;               /* the three ceilings of the permitted speed, 120ths of a km/h */
    uint32_t sbi;
    uint32_t ebi;
    uint32_t overlap_stretch; /* the governing stretch past the signal, from 0 along the sheet; or APPROACH_NO_STRETCH */
    uint32_t ahead_stretch;   /* the governing stretch up to the signal */
};

/* Document 002's first values of the coefficients. */
struct approach_coefficients approach_first_values(void);

/* Distances from V to the target V0, both in km/h; the gradient in per mille, positive uphill. V may be above the top speed. */
struct approach_distances approach_step(struct approach_train train, uint32_t v, uint32_t v0, int32_t gradient);

/* The most places that a row takes: from V0 0 to a top speed of 330. */
#define APPROACH_LONGEST_ROW 331

/* One curve's distances in millimetres for every V from V0 to the top speed, V0 first: top speed - V0 + 1 places. */
struct approach_written approach_row_ebi(struct approach_train train, uint32_t v0, int32_t gradient, uint32_t *row, size_t places);
struct approach_written approach_row_sbi(struct approach_train train, uint32_t v0, int32_t gradient, uint32_t *row, size_t places);
struct approach_written approach_row_w(struct approach_train train, uint32_t v0, int32_t gradient, uint32_t *row, size_t places);
struct approach_written approach_row_p(struct approach_train train, uint32_t v0, int32_t gradient, uint32_t *row, size_t places);

/* The way past a closed signal from V in km/h. For the dead time TM, 0 to 2,000, the brake does nothing; in the rise time TR,
 * 1 to 3,000, it comes up to all it has; both in hundredths of a second. Of the coefficients the slope's alone count. */
struct approach_stop approach_ramp(
    uint32_t braked_weight, int32_t gradient, uint32_t v, uint32_t tm, uint32_t tr, struct approach_inertia inertia);

/* The ceilings of a permitted speed in km/h, 0 to 330. The first works them out by the paper's rule; the second only looks them up,
 * in a table of 993 numbers (W, SBI, EBI of 0 km/h, of 1 km/h, ..). Their answers are the same, of every number. A tool takes the
 * first, which is the quicker; the second has its table, some 2,000 bytes, on the stack while it is called. A maker whose equipment
 * reads stored numbers, such as a display, takes the second, to hold it against one that does the same. */
struct approach_limits approach_ceilings(uint32_t permitted);
struct approach_limits approach_ceilings_stored(uint32_t permitted);

/* Writes a line sheet, APPROACH_SHEET_LENGTH(start_count, place_count) bytes of it, from fields that keep its rules. Starts
 * and gradients pair up as stretches, places and overlaps as signals, in lists of one length; metres and per mille. */
struct approach_written approach_sheet_write(
    const uint32_t *starts, size_t start_count, const int16_t *gradients, size_t gradient_count,
    const uint32_t *places, size_t place_count, const uint16_t *overlaps, size_t overlap_count,
    uint32_t line_end, uint8_t *sheet, size_t room);

/* A stretch or a signal by its number, from 0. */
struct approach_stretch approach_sheet_stretch(const uint8_t *sheet, size_t length, uint32_t number);
struct approach_signal approach_sheet_signal(const uint8_t *sheet, size_t length, uint32_t number);

/* The next stretch along the sheet. */
struct approach_move approach_sheet_next(const uint8_t *sheet, size_t length, struct approach_mark mark);

/* The step of a number, from 0, on the walk from a signal back to the tail of a train; signal, head and tail as in approach_query,
 * the train's length in metres. Step 0 is the stretch that holds the signal's own point, step k the one k before it, and the last is
 * the stretch that holds the tail: its least is the gradient on which the query brakes to the release speed, and its least_stretch the
 * query's ahead_stretch. A call checks the sheet, finds the signal's stretch by halving and walks no more steps than its number. */
struct approach_back approach_sheet_back(
    const uint8_t *sheet, size_t length, uint32_t signal, uint32_t head, uint32_t train_length, uint32_t step);

/* The approach to the signal of a number, from 0, with the head at a place in metres. The train brakes to the release speed on
 * the least gradient from its tail to the signal, and past the signal on the least from where its tail is with the head at the
 * signal up to the overlap's end. The tail is the train's length behind the head, or at 0 where there is less of the line behind
 * it; TM and TR as above. */
struct approach_answer approach_query(
    struct approach_train train, uint32_t tm, uint32_t tr, const uint8_t *sheet, size_t length, uint32_t signal, uint32_t head);

#ifdef __cplusplus
}
#endif

#endif
