/* Each call, refusal and mark of include/approach.h, as a designer's tool would link it. What is expected is document 01's,
 * or worked out by hand from its formulas and document 02's cards. Prints `N passed, M failed`. */
#include "approach.h"
#include <stdio.h>
#include <string.h>

_Static_assert(sizeof(struct approach_inertia) == 20 && offsetof(struct approach_inertia, i2) == 16, "inertia");
_Static_assert(sizeof(struct approach_coefficients) == 44 && offsetof(struct approach_coefficients, inertia) == 24, "coefficients");
_Static_assert(sizeof(struct approach_train) == 60 && offsetof(struct approach_train, braked_weight) == 4, "train");
_Static_assert(offsetof(struct approach_train, coefficients) == 16, "its coefficients behind what it had before");
_Static_assert(sizeof(bool) == 1 && offsetof(struct approach_train, electropneumatic) == 1, "its bytes");
_Static_assert(sizeof(struct approach_distances) == 20, "distances");
_Static_assert(sizeof(struct approach_move) == 20 && offsetof(struct approach_move, mark) == 16, "move");
_Static_assert(sizeof(struct approach_back) == 24 && offsetof(struct approach_back, least_stretch) == 20, "back");
_Static_assert(sizeof(struct approach_answer) == 36 && offsetof(struct approach_answer, ahead_stretch) == 32, "answer");
_Static_assert(offsetof(struct approach_answer, overlap_stretch) == 28, "its stretches behind what it had before");
_Static_assert(APPROACH_NO_STRETCH == 65535 && APPROACH_NO_STRETCH >= APPROACH_MOST_STRETCHES, "no stretch's number");
_Static_assert(APPROACH_ACCEPTED == 0 && APPROACH_MARK_CURVE == 1 && APPROACH_MARK_RELEASE == 2, "document 01's numbers");
_Static_assert(APPROACH_LONGEST_SHEET == 20 + 6 * 512 + 6 * 64 && APPROACH_LONGEST_ROW == 331, "the longest sheet and row");

static int passed, failed;

static void expect(const char *name, bool holds) {
    if (holds) {
        passed++;
    } else {
        failed++;
        printf("%s: FAILED\n", name);
    }
}

/* EP, with a top speed of 91 so that a row from 90 has two places. */
static const struct approach_train train = {false, true, 100, 200, 91, APPROACH_FIRST_VALUES};

/* At V = V0 = 90 on the level: T = 1 + 1.3 * 3.5 = 5.55 s and 25 m/s. EBI = 25 T, SBI as much again, W and P 1.5 s more each. */
enum { EBI = 138750, SBI = 277500, W = 315000, P = 352500 };

/* Document 01's example: one level stretch, signals at 0 with 120 m and at 1,057 with none, line end 2,000. */
static const uint8_t example[38] = {
    0x01, 0x00, 0x02, 0x00, 0x14, 0x00, 0x00, 0x00, 0x1A, 0x00, 0x00, 0x00, 0x26, 0x00, 0x00, 0x00, 0xD0, 0x07, 0x00,
    0x00, 0x00, 0x00, 0x00, 0x00, 0x00, 0x00, 0x00, 0x00, 0x00, 0x00, 0x78, 0x00, 0x21, 0x04, 0x00, 0x00, 0x00, 0x00,
};

typedef struct approach_written row_call(struct approach_train, uint32_t, int32_t, uint32_t *, size_t);

/* The first place is V0's; the one behind the row is left as it was. */
static void expect_row(const char *name, row_call *call, uint32_t first) {
    uint32_t row[3] = {7, 7, 7};
    struct approach_written written = call(train, 90, 0, row, 3);
    bool accepted = written.refusal == APPROACH_ACCEPTED && written.length == 2;
    expect(name, accepted && row[0] == first && row[1] > first && row[2] == 7);
}

/* Document 01's three ramp rows, in the ranges of document 02's Card 13. */
static void expect_ramp(const char *name, struct approach_stop stop, uint32_t least) {
    expect(name, stop.refusal == APPROACH_ACCEPTED && (stop.distance == least || stop.distance == least + 1));
}

static void models(void) {
    struct approach_distances d = approach_step(train, 90, 0, 0);
    bool rising = d.ebi < d.sbi && d.sbi < d.w && d.w < d.p;
    expect("step", d.refusal == APPROACH_ACCEPTED && d.ebi == 842532 && d.p == 1056282 && rising);
    expect_row("row_ebi", approach_row_ebi, EBI);
    expect_row("row_sbi", approach_row_sbi, SBI);
    expect_row("row_w", approach_row_w, W);
    expect_row("row_p", approach_row_p, P);
    const struct approach_inertia first = train.coefficients.inertia;
    expect_ramp("ramp", approach_ramp(100, 0, 36, 200, 400, first), 110850);
    expect_ramp("ramp while the brake rises", approach_ramp(100, 0, 1, 0, 3000, first), 903);
    expect_ramp("ramp before the brake acts", approach_ramp(100, 35, 1, 2000, 1, first), 125);
}

/* The call and the initialiser give the same, field by field document 002's; neither record has a gap. */
static void first_values(void) {
    const struct approach_coefficients initialised = APPROACH_FIRST_VALUES, given = approach_first_values();
    const struct approach_inertia inertia = {.ki1 = 90, .ki2 = 100, .ki3 = 110, .i1 = 0, .i2 = -21};
    const struct approach_coefficients wanted = {
        .dt = 130, .h = 10, .kr = 57, .cr = 5, .nc = 0, .vc = 150, .inertia = inertia};
    expect("first values by the call", memcmp(&given, &wanted, sizeof wanted) == 0);
    expect("first values by the initialiser", memcmp(&initialised, &wanted, sizeof wanted) == 0);
}

/* At V = V0 = 90 on the level, 25 m/s. Dt 2.00 and h 5.0: T = 5 + 2 * 3.5 = 12 s, EBI = 25 T and SBI 25 * (1 + 2 * 3.5) more. With
 * neither T = 0: there is no run before the brake, and SBI is 25 * 1 more. */
static void own_coefficients(void) {
    struct approach_train slow = train, quick = train;
    slow.coefficients.dt = 200;
    slow.coefficients.h = 50;
    quick.coefficients.dt = 0;
    quick.coefficients.h = 0;
    struct approach_distances d = approach_step(slow, 90, 90, 0), q = approach_step(quick, 90, 90, 0);
    expect("a delay of its own", d.refusal == APPROACH_ACCEPTED && d.ebi == 300000 && d.sbi == 500000);
    expect("no delay", q.refusal == APPROACH_ACCEPTED && q.ebi == 0 && q.sbi == 25000);
    struct approach_train strong = train;
    strong.coefficients.kr = 58;
    expect("a brake of its own", approach_step(strong, 90, 0, 0).ebi < approach_step(train, 90, 0, 0).ebi);
}

/* From 1 km/h on 35 per mille the train stops before the brake acts, after (5/18)^2 / (2 di): with Ki1 1.20 di is 0.41202 m/s2 and
 * that 93.637 mm; with i1 35 it is Ki2 that counts, 0.34335 m/s2 and 112.365 mm. The answer is less than 2 mm over. */
static void own_inertia(void) {
    struct approach_inertia steep = train.coefficients.inertia, late = steep;
    steep.ki1 = 120;
    late.i1 = 35;
    expect_ramp("ramp with a Ki1 of its own", approach_ramp(100, 35, 1, 2000, 1, steep), 94);
    expect_ramp("ramp with an i1 of its own", approach_ramp(100, 35, 1, 2000, 1, late), 113);
}

/* A program from before the coefficients leaves them 0. */
static void left_zero(void) {
    const struct approach_train old = {.electropneumatic = true, .braked_weight = 100, .length = 200, .top_speed = 91};
    const struct approach_inertia none = {0};
    uint32_t row[2] = {7, 7};
    expect("step of zeros", approach_step(old, 90, 0, 0).refusal == APPROACH_REFUSED_COEFFICIENT);
    row_call *const calls[] = {approach_row_ebi, approach_row_sbi, approach_row_w, approach_row_p};
    for (size_t k = 0; k < sizeof calls / sizeof *calls; k++) {
        struct approach_written written = calls[k](old, 90, 0, row, 2);
        expect("row of zeros", written.refusal == APPROACH_REFUSED_COEFFICIENT && row[0] == 7 && row[1] == 7);
    }
    expect("ramp of zeros", approach_ramp(100, 0, 36, 200, 400, none).refusal == APPROACH_REFUSED_COEFFICIENT);
    const struct approach_answer answer = approach_query(old, 200, 400, example, sizeof example, 1, 0);
    const struct approach_answer refused = {.refusal = APPROACH_REFUSED_COEFFICIENT};
    expect("query of zeros", memcmp(&answer, &refused, sizeof refused) == 0);
}

/* With nC -0.010 above VC 0 nothing is left of the brake at 100 km/h, and on the level dp is 0.05 m/s2 or more up to 88: there it is
 * 0.57 * 0.779 * 0.12 = 0.0533, and 0.0489 at 89. A row is refused by its top speed, though its V0 is strong and also where its list
 * is too short; a climb to a far signal ends at 88. */
static void weak_at_the_top(void) {
    struct approach_train t = train;
    t.coefficients.nc = -10;
    t.coefficients.vc = 0;
    uint32_t row[92];
    memset(row, 7, sizeof row);
    t.top_speed = 88;
    struct approach_written strong = approach_row_p(t, 0, 0, row, 92);
    expect("row strong at the top", strong.refusal == APPROACH_ACCEPTED && strong.length == 89);
    t.top_speed = 89;
    memset(row, 7, sizeof row);
    struct approach_written weak = approach_row_p(t, 0, 0, row, 92), brief = approach_row_p(t, 0, 0, row, 1);
    bool untouched = true;
    for (size_t k = 0; k < 92; k++) {
        untouched = untouched && row[k] == 0x07070707;
    }
    expect("row too weak at the top", weak.refusal == APPROACH_REFUSED_WEAK_BRAKE && weak.length == 0 && untouched);
    expect("and in too few places", brief.refusal == APPROACH_REFUSED_WEAK_BRAKE && brief.length == 0);
    const uint32_t starts[] = {0}, places[] = {40000};
    const int16_t gradients[] = {0};
    const uint16_t overlaps[] = {0};
    uint8_t sheet[APPROACH_SHEET_LENGTH(1, 1)];
    approach_sheet_write(starts, 1, gradients, 1, places, 1, overlaps, 1, 50000, sheet, sizeof sheet);
    struct approach_answer answer = approach_query(t, 200, 400, sheet, sizeof sheet, 0, 0);
    bool accepted = answer.refusal == APPROACH_ACCEPTED && answer.mark == APPROACH_MARK_CURVE;
    expect("query, the climb ended for lack of brake", accepted && answer.permitted == 88);
}

typedef struct approach_limits limits_call(uint32_t);

/* Document 01's two figures, and a speed over its span. */
static void expect_ceilings(const char *name, limits_call *call) {
    const struct approach_limits of_111 = {APPROACH_ACCEPTED, 13804, 13926, 14229};
    const struct approach_limits of_210 = {APPROACH_ACCEPTED, 25800, 26400, 27000};
    const struct approach_limits of_331 = {APPROACH_REFUSED_SPEED, 0, 0, 0};
    struct approach_limits given[] = {call(111), call(210), call(331)}, wanted[] = {of_111, of_210, of_331};
    expect(name, memcmp(given, wanted, sizeof given) == 0);
}

/* Both ways answer alike, also what is refused. */
static void ceilings(void) {
    expect_ceilings("ceilings", approach_ceilings);
    expect_ceilings("ceilings_stored", approach_ceilings_stored);
    bool alike = true;
    for (uint32_t permitted = 0; permitted < 1000; permitted++) {
        struct approach_limits worked = approach_ceilings(permitted), stored = approach_ceilings_stored(permitted);
        alike = alike && memcmp(&worked, &stored, sizeof worked) == 0;
    }
    expect("ceilings both ways", alike);
}

/* As for EBI above, without EP and then as freight: T = 1 + 1.3 * (3.5 + 0.15 * 4) and 1 + 1.3 * (13.5 + 0.04 * 4). */
enum { EBI_WITHOUT_EP = 158250, EBI_FREIGHT = 468950 };

/* The bytes go in as another language would put them there. */
static uint32_t ebi(uint8_t freight, uint8_t electropneumatic) {
    struct approach_train t = train;
    memcpy(&t.freight, &freight, 1);
    memcpy(&t.electropneumatic, &electropneumatic, 1);
    return approach_step(t, 90, 90, 0).ebi;
}

/* 0 is no, and any other byte yes. */
static void bytes(void) {
    bool others = true;
    for (unsigned byte = 1; byte < 256; byte++) {
        others = others && ebi(byte, 0) == EBI_FREIGHT && ebi(0, byte) == EBI;
    }
    expect("no by 0", ebi(0, 0) == EBI_WITHOUT_EP);
    expect("no and yes by C's own", ebi(true, false) == EBI_FREIGHT && ebi(false, true) == EBI);
    expect("freight by 254 and 255", ebi(254, 0) == EBI_FREIGHT && ebi(255, 0) == EBI_FREIGHT);
    expect("yes by every other byte", others);
}

/* From V0 0 to a top speed of 330 a row takes all its places. */
static void longest_row(void) {
    struct approach_train fastest = train;
    fastest.top_speed = 330;
    uint32_t row[APPROACH_LONGEST_ROW];
    struct approach_written written = approach_row_p(fastest, 0, 0, row, APPROACH_LONGEST_ROW);
    expect("longest row", written.refusal == APPROACH_ACCEPTED && written.length == APPROACH_LONGEST_ROW);
}

static void sheets(void) {
    const uint32_t starts[] = {0}, places[] = {0, 1057};
    const int16_t gradients[] = {0};
    const uint16_t overlaps[] = {120, 0};
    uint8_t sheet[APPROACH_SHEET_LENGTH(1, 2) + 2];
    memset(sheet, 7, sizeof sheet);
    struct approach_written written = approach_sheet_write(starts, 1, gradients, 1, places, 2, overlaps, 2, 2000, sheet, sizeof sheet);
    bool accepted = written.refusal == APPROACH_ACCEPTED && written.length == APPROACH_SHEET_LENGTH(1, 2);
    bool same = memcmp(sheet, example, sizeof example) == 0;
    expect("sheet_write", accepted && same && sheet[38] == 7 && sheet[39] == 7);
    struct approach_stretch stretch = approach_sheet_stretch(example, sizeof example, 1);
    expect("sheet_stretch", stretch.refusal == APPROACH_REFUSED_NUMBER && stretch.start == 0 && stretch.gradient == 0);
    struct approach_signal signal = approach_sheet_signal(example, sizeof example, 1);
    expect("sheet_signal", signal.refusal == APPROACH_ACCEPTED && signal.place == 1057 && signal.overlap == 0);
    struct approach_move move = approach_sheet_next(example, sizeof example, (struct approach_mark){0});
    bool first = move.end == 0 && move.start == 0 && move.gradient == 0 && move.mark.next == 1;
    expect("sheet_next", move.refusal == APPROACH_ACCEPTED && first);
}

/* Writes a level line of so many stretches and signals, one of each a metre. */
static struct approach_written level_line(size_t stretches, size_t signals) {
    static uint32_t metres[APPROACH_MOST_STRETCHES + 1];
    static const int16_t gradients[APPROACH_MOST_STRETCHES + 1] = {0};
    static const uint16_t overlaps[APPROACH_MOST_SIGNALS + 1] = {0};
    static uint8_t sheet[APPROACH_LONGEST_SHEET];
    for (uint32_t k = 0; k <= APPROACH_MOST_STRETCHES; k++) {
        metres[k] = k;
    }
    return approach_sheet_write(
        metres, stretches, gradients, stretches, metres, signals, overlaps, signals, 2000, sheet, sizeof sheet);
}

/* 1 to 512 stretches and 0 to 64 signals make a sheet. */
static void sheet_lengths(void) {
    const size_t n = APPROACH_MOST_STRETCHES, m = APPROACH_MOST_SIGNALS;
    expect("shortest sheet", level_line(1, 0).length == APPROACH_SHEET_LENGTH(1, 0));
    expect("longest sheet", level_line(n, m).length == APPROACH_LONGEST_SHEET);
    expect("a stretch too many", level_line(n + 1, m).refusal == APPROACH_REFUSED_SHEET);
    expect("a signal too many", level_line(n, m + 1).refusal == APPROACH_REFUSED_SHEET);
}

/* With the times and the head of document 01's program; every field of the answer counts. */
static void expect_answer(const char *name, uint32_t top_speed, uint32_t signal, struct approach_answer wanted) {
    struct approach_train t = train;
    t.top_speed = top_speed;
    struct approach_answer answer = approach_query(t, 200, 400, example, sizeof example, signal, 0);
    expect(name, memcmp(&answer, &wanted, sizeof answer) == 0);
}

/* The program's top speed is 100. As 90 is permitted by the curve all speeds below fit, and the top speed ends a climb to 60. The line
 * has one stretch, and its second signal no overlap. */
static void query(void) {
    const uint32_t none = APPROACH_NO_STRETCH;
    struct approach_answer release = {APPROACH_ACCEPTED, 37, 37, APPROACH_MARK_RELEASE, 4920, 5040, 5340, 0, 0};
    struct approach_answer curve = {APPROACH_ACCEPTED, 0, 90, APPROACH_MARK_CURVE, 11280, 11400, 11700, none, 0};
    struct approach_answer top = {
        APPROACH_ACCEPTED, 0, 60, APPROACH_MARK_CURVE, 60 * 120 + 480, 60 * 120 + 600, 60 * 120 + 900, none, 0};
    expect_answer("query, held by the release speed", 100, 0, release);
    expect_answer("query, held by the curve", 100, 1, curve);
    expect_answer("query, held by the top speed", 60, 1, top);
}

/* A fall of 20 per mille up to 800 m, level from there on; with its head at a signal at 1,000 m that has 120 m of overlap, a train of
 * 200 m has left the fall and one of 201 m has not (document 02, Card 2). On -20 the ramp takes 116.770 m from 30 km/h and 122.974 m
 * from 31; on the level 37 is document 01's. */
static void tail(void) {
    const uint32_t starts[] = {0, 800}, places[] = {1000};
    const int16_t gradients[] = {-20, 0};
    const uint16_t overlaps[] = {120};
    const struct approach_answer off = {APPROACH_ACCEPTED, 37, 37, APPROACH_MARK_RELEASE, 4920, 5040, 5340, 1, 1};
    const struct approach_answer on = {
        APPROACH_ACCEPTED, 30, 30, APPROACH_MARK_RELEASE, 30 * 120 + 480, 30 * 120 + 600, 30 * 120 + 900, 0, 0};
    uint8_t sheet[APPROACH_SHEET_LENGTH(2, 1)];
    approach_sheet_write(starts, 2, gradients, 2, places, 1, overlaps, 1, 2000, sheet, sizeof sheet);
    struct approach_train t = train;
    struct approach_answer of_200 = approach_query(t, 200, 400, sheet, sizeof sheet, 0, 1000);
    t.length = 201;
    struct approach_answer of_201 = approach_query(t, 200, 400, sheet, sizeof sheet, 0, 1000);
    expect("query, the tail off the fall", memcmp(&of_200, &off, sizeof off) == 0);
    expect("query, the tail on the fall", memcmp(&of_201, &on, sizeof on) == 0);
}

/* A fall of 8 per mille between two rises, and a signal on the second. */
static struct approach_written hollow(uint8_t *sheet, size_t room) {
    const uint32_t starts[] = {0, 400, 900}, places[] = {1000};
    const int16_t gradients[] = {5, -8, 3};
    const uint16_t overlaps[] = {0};
    return approach_sheet_write(starts, 3, gradients, 3, places, 1, overlaps, 1, 2000, sheet, room);
}

/* Every field of a step counts. */
static void expect_back(const char *name, struct approach_back step, struct approach_back wanted) {
    expect(name, memcmp(&step, &wanted, sizeof wanted) == 0);
}

/* Document 02, Card 3: from the signal back to a tail, which is at 400 m where the second stretch starts, and at 399 m. */
static void walk(void) {
    const struct approach_back end = {.end = 1};
    uint8_t sheet[APPROACH_SHEET_LENGTH(3, 1)];
    const size_t length = hollow(sheet, sizeof sheet).length;
    expect_back("step 0", approach_sheet_back(sheet, length, 0, 600, 200, 0), (struct approach_back){0, 0, 2, 3, 3, 2});
    expect_back("step 1", approach_sheet_back(sheet, length, 0, 600, 200, 1), (struct approach_back){0, 0, 1, -8, -8, 1});
    expect_back("past the tail", approach_sheet_back(sheet, length, 0, 600, 200, 2), end);
    expect_back("far past it", approach_sheet_back(sheet, length, 0, 600, 200, UINT32_MAX), end);
    expect_back("step 2", approach_sheet_back(sheet, length, 0, 599, 200, 2), (struct approach_back){0, 0, 0, 5, -8, 1});
    expect_back("past the line", approach_sheet_back(sheet, length, 0, 599, 1000, 3), end);
}

/* Each refusal of a step, of two or more the first, and zeros beside it. */
static void walk_refusals(void) {
    const struct approach_back too_long = {.refusal = APPROACH_REFUSED_LENGTH}, no_sheet = {.refusal = APPROACH_REFUSED_SHEET};
    const struct approach_back no_signal = {.refusal = APPROACH_REFUSED_NUMBER}, beyond = {.refusal = APPROACH_REFUSED_HEAD};
    uint8_t sheet[APPROACH_SHEET_LENGTH(3, 1)];
    const size_t length = hollow(sheet, sizeof sheet).length;
    expect_back("step, a train too long", approach_sheet_back(sheet, length - 1, 1, 1001, 1001, 0), too_long);
    expect_back("step, no sheet", approach_sheet_back(sheet, length - 1, 1, 1001, 1000, 0), no_sheet);
    expect_back("step, no such signal", approach_sheet_back(sheet, length, 1, 1001, 1000, 0), no_signal);
    expect_back("step, the head beyond", approach_sheet_back(sheet, length, 0, 1001, 1000, 0), beyond);
    expect_back("and past the end", approach_sheet_back(sheet, length, 0, 1001, 1000, UINT32_MAX), beyond);
}

/* Starts at 0, 300, 600 and 900 m, the first stretch uphill by 3 per mille and the others as told; a signal at 650 m. */
static struct approach_written waves(const int16_t others[3], uint16_t overlap, uint8_t *sheet, size_t room) {
    const uint32_t starts[] = {0, 300, 600, 900}, places[] = {650};
    const int16_t gradients[] = {3, others[0], others[1], others[2]};
    return approach_sheet_write(starts, 4, gradients, 4, places, 1, &overlap, 1, 6000, sheet, room);
}

/* The last step of a walk on a line of four stretches. */
static struct approach_back last_step(const uint8_t *sheet, size_t length, uint32_t head, uint32_t train_length) {
    struct approach_back last = approach_sheet_back(sheet, length, 0, head, train_length, 0);
    for (uint32_t k = 1; k < 4; k++) {
        struct approach_back step = approach_sheet_back(sheet, length, 0, head, train_length, k);
        last = step.end ? last : step;
    }
    return last;
}

/* The two numbers of a query on such a line; the last step has the second. */
static void expect_governing(
    const char *name, const int16_t others[3], uint16_t overlap, uint32_t train_length, uint32_t head, uint32_t past, uint32_t ahead) {
    uint8_t sheet[APPROACH_SHEET_LENGTH(4, 1)];
    const size_t length = waves(others, overlap, sheet, sizeof sheet).length;
    struct approach_train t = train;
    t.length = train_length;
    const struct approach_answer answer = approach_query(t, 200, 400, sheet, length, 0, head);
    const struct approach_back last = last_step(sheet, length, head, train_length);
    bool accepted = answer.refusal == APPROACH_ACCEPTED && last.refusal == APPROACH_ACCEPTED;
    bool numbers = answer.overlap_stretch == past && answer.ahead_stretch == ahead;
    expect(name, accepted && numbers && last.least_stretch == ahead);
}

/* Document 02, Card 4. The way ahead is from the tail to 650 m; past the signal counts what lies from 650 m less the train's length up
 * to but not including the overlap's end, which with 250 m leaves the last stretch out and with 251 m does not. Of stretches of one
 * gradient the first along the sheet governs. */
static void governing(void) {
    const int16_t falls[] = {-5, -5, -5}, between[] = {-5, 3, -5}, rises[] = {3, 3, 3}, last[] = {3, 3, -5};
    const uint32_t none = APPROACH_NO_STRETCH;
    expect_governing("the first of two falls", falls, 0, 0, 0, none, 1);
    expect_governing("the signal's own fall", falls, 0, 0, 650, none, 2);
    expect_governing("the fall under the head", falls, 250, 0, 301, 2, 1);
    expect_governing("behind the overlap's end", last, 250, 0, 0, 2, 0);
    expect_governing("before the overlap's end", last, 251, 0, 0, 3, 0);
    expect_governing("tail and head in one stretch", rises, 250, 1, 301, 2, 1);
    expect_governing("tail and head in two", rises, 251, 1, 299, 2, 0);
    expect_governing("51 m of train", rises, 250, 51, 301, 1, 0);
    expect_governing("a train longer than the line behind it", rises, 251, 1000, 650, 0, 0);
    expect_governing("and a fall past the signal", last, 251, 1000, 650, 3, 0);
    expect_governing("the first of two falls apart", between, 251, 1000, 0, 1, 1);
}

/* Document 02, Card 4: a fall in one piece and in two. The second line's pieces are 1 and 2, and with its tail at 500 m a train has left
 * the first; all else of the answers is the same. */
static void agreement(void) {
    const uint32_t whole[] = {0, 300, 900}, cut[] = {0, 300, 450, 900}, places[] = {650};
    const int16_t whole_gradients[] = {3, -5, 3}, cut_gradients[] = {3, -5, -5, 3};
    const uint16_t overlaps[] = {120};
    uint8_t one[APPROACH_SHEET_LENGTH(3, 1)], two[APPROACH_SHEET_LENGTH(4, 1)];
    approach_sheet_write(whole, 3, whole_gradients, 3, places, 1, overlaps, 1, 2000, one, sizeof one);
    approach_sheet_write(cut, 4, cut_gradients, 4, places, 1, overlaps, 1, 2000, two, sizeof two);
    struct approach_train t = train;
    t.length = 100;
    const struct approach_answer a = approach_query(t, 200, 400, one, sizeof one, 0, 600);
    const struct approach_answer b = approach_query(t, 200, 400, two, sizeof two, 0, 600);
    expect("in one piece", a.refusal == APPROACH_ACCEPTED && a.overlap_stretch == 1 && a.ahead_stretch == 1);
    expect("in two", b.refusal == APPROACH_ACCEPTED && b.overlap_stretch == 2 && b.ahead_stretch == 2);
    expect("all else the same", memcmp(&a, &b, offsetof(struct approach_answer, overlap_stretch)) == 0);
}

/* The header's constant and the call's answer are document 01's number, or document 02's. */
static void expect_refusal(uint32_t number, uint32_t constant, uint32_t refusal) {
    char name[16];
    snprintf(name, sizeof name, "refusal %u", (unsigned)number);
    expect(name, constant == number && refusal == number);
}

/* What document 01 gives as an example of each; a head beyond its own sheet's second signal; a VC off its step. */
static void refusals(void) {
    static const uint8_t no_stretch[20] = {0, 0, 0, 0, 20, 0, 0, 0, 20, 0, 0, 0, 20, 0, 0, 0, 0xD0, 0x07, 0, 0};
    const size_t length = sizeof example;
    struct approach_train odd = train, too_long = train, weak = train, off = train;
    odd.braked_weight = 47;
    too_long.length = 1001;
    weak.braked_weight = 45;
    off.coefficients.vc = 151;
    uint32_t row[2] = {7, 7};
    expect_refusal(1, APPROACH_REFUSED_WEIGHT, approach_step(odd, 90, 0, 0).refusal);
    expect_refusal(2, APPROACH_REFUSED_LENGTH, approach_step(too_long, 90, 0, 0).refusal);
    expect_refusal(3, APPROACH_REFUSED_SPEED, approach_step(train, 50, 400, 0).refusal);
    expect_refusal(4, APPROACH_REFUSED_TARGET, approach_step(train, 50, 51, 0).refusal);
    expect_refusal(5, APPROACH_REFUSED_GRADIENT, approach_step(train, 90, 0, 36).refusal);
    expect_refusal(6, APPROACH_REFUSED_TIMES, approach_ramp(100, 0, 36, 200, 0, train.coefficients.inertia).refusal);
    expect_refusal(7, APPROACH_REFUSED_SHEET, approach_sheet_stretch(no_stretch, sizeof no_stretch, 0).refusal);
    expect_refusal(8, APPROACH_REFUSED_NUMBER, approach_query(train, 200, 400, example, length, 2, 0).refusal);
    expect_refusal(9, APPROACH_REFUSED_HEAD, approach_query(train, 200, 400, example, length, 1, 1058).refusal);
    expect_refusal(10, APPROACH_REFUSED_WEAK_BRAKE, approach_step(weak, 90, 0, -19).refusal);
    expect_refusal(11, APPROACH_REFUSED_ROOM, approach_row_ebi(train, 89, 0, row, 2).refusal);
    expect_refusal(12, APPROACH_REFUSED_COEFFICIENT, approach_step(off, 90, 0, 0).refusal);
    expect("row in too few places", row[0] == 7 && row[1] == 7);
}

int main(void) {
    models();
    first_values();
    own_coefficients();
    own_inertia();
    left_zero();
    weak_at_the_top();
    ceilings();
    bytes();
    longest_row();
    sheets();
    sheet_lengths();
    query();
    tail();
    walk();
    walk_refusals();
    governing();
    agreement();
    refusals();
    printf("%d passed, %d failed\n", passed, failed);
    return failed > 0;
}
