/* The differential evolution sampler for C callers. Link with libemkhurtov.a (lib/x86_64-linux, or by pkg-config).
 *
 * The functions de_new, de_sample, de_look, de_slot_setting, de_save, de_restore, de_read_history, de_sweep,
 * de_to_internal and de_draw_ceiling are the proved code itself (crates/exports); what each promises stands beside it
 * and is proved there for every memory content and every argument. They take references, so a pointer that they are
 * given must be valid. The functions de_checked_* below test what a pointer's callers get wrong (null, too short,
 * misaligned, overlapping) and then call them.
 *
 * Numbers stand for cases; a number that names no case is answered, never guessed at. Nothing here allocates, locks, or
 * keeps anything between calls: a state is all there is, the caller owns it, and two states never touch each other.
 *
 * A call needs 1.5 MB of stack, which a thread must have: 760 KB were measured for de_restore, which takes the most,
 * 440 KB for a campaign of sample and look calls, and the tests run with 1.5 MB. */
#ifndef EMKHURTOV_H
#define EMKHURTOV_H

#include <stddef.h>
#include <stdint.h>

#ifdef __cplusplus
extern "C" {
#endif

#define DE_VERSION "0.11.0"
#define DE_VERSION_MAJOR 0
#define DE_VERSION_MINOR 11
#define DE_VERSION_PATCH 0

/* The version of the library that is linked: DE_VERSION, where it is this header's. Where it is another, do not call,
 * and compile anew. In 0.7.0 an entry of the history has grown, which no call sees. In 0.8.0 the set-up has, and with
 * it the state: a checked function that is lent the size of the old one answers DE_SHORT_BUFFER; no other call sees it.
 * In 0.9.0 no struct has changed: refusal 11 (DE_ENTRY_NAN) is gone, and a state with an entry over 4e300 in size is
 * refused (DeState). In 0.10.0 no struct has changed: an Int with log scale is taken as a ladder (DeDistribution),
 * where it was refused by DE_LOG_SCALE. In 0.11.0 de_sweep is new, and no struct has changed but DeMarks. */
const char *de_version(void);

enum {
    DE_MAX_DIMENSIONS = 16,
    DE_MIN_POPULATION = 4, /* a smaller size is raised to it */
    DE_MAX_POPULATION = 160,
    DE_MAX_EXTRA = 64,
    DE_MAX_TRIALS = 224, /* DE_MAX_POPULATION + DE_MAX_EXTRA */
    DE_MAX_CHOICES = 65535,
    DE_MAX_DRAWS = 494080,      /* of one call: DE_MAX_POPULATION x (3,072 + DE_MAX_DIMENSIONS) */
    DE_MAX_FILE = 73120,        /* bytes of the largest saved file */
    DE_MAX_COMBINATIONS = 65536 /* of one sweep */
};
#define DE_MAX_REAL 1e300                      /* the largest Float bound */
#define DE_MAX_WHOLE INT64_C(9007199254740992) /* 2^53, the largest Int bound and step */
#define DE_MAX_STEPS INT64_C(4294967295)       /* the most steps of a Float distribution */
#define DE_MAX_LADDER INT64_C(2147483648)      /* 2^31, the largest high bound of a ladder (DeDistribution) */

/* `sized`, `stepped`, `log_scale`, `named` and `discovered` are one of these. */
enum { DE_NO = 0, DE_YES = 1 };

/* What an answer is. The kinds from 16 on are given by the checked functions alone. */
enum {
    DE_REFUSED = 0, /* `refusal` says which */
    DE_FLOAT = 1,   /* the setting is `real` */
    DE_INT = 2,     /* the setting is `whole` */
    DE_CHOICE = 3,  /* the setting is `choice`, counted from 0 */
    DE_UNKNOWN = 4, /* a number in the call, set-up, setting, history or a sweep's dimensions names no case; before
                     * every refusal */
    DE_MADE = 5,    /* the state is set up */
    DE_NOTHING = 6, /* there is no such slot or dimension yet */
    DE_NULL_POINTER = 16,
    DE_SHORT_BUFFER = 17, /* the memory is smaller than DeState */
    DE_MISALIGNED = 18,
    DE_LAYOUT = 19,     /* the checked functions and the proved code do not lay out the structs alike */
    DE_OVERLAPPING = 20 /* two pieces of lent memory have a byte in common: a file and a state, a text and a history, a
                         * sweep's dimensions and its list */
};

/* The kinds of a look. */
enum {
    DE_LOOK_REFUSED = 0,
    DE_LOOK_NOTHING = 1, /* no generation has closed yet */
    DE_LOOK_BEST = 2
};

/* The kinds of a DeInternal, beside DE_REFUSED and DE_UNKNOWN. */
enum { DE_INTERNAL_VALUE = 1 };

/* The kinds of a DeFile, beside DE_REFUSED and those from 16 on. */
enum {
    DE_SAVED = 1, /* the file's first `length` bytes are the saved state */
    DE_RESTORED = 2
};

/* The kind of a DeRead, beside DE_REFUSED and those from 16 on. */
enum { DE_READ = 1 }; /* the history's first `count` places are the entries of the export */

/* The kind of a DeCount, beside DE_REFUSED, DE_UNKNOWN and those from 16 on. */
enum { DE_LISTED = 1 }; /* the first `count` x n places of the lent memory are all combinations */

/* Why a call was refused. */
enum {
    DE_STATE_NOT_SOUND = 0, /* no state that a sampler can have: memory that was not set up, or was changed (DeState) */
    DE_MUTATION_FACTOR = 1, /* F is not in 0 to 2 */
    DE_CROSSOVER_RATE = 2,  /* CR is not in 0 to 1 */
    DE_POPULATION_SIZE = 3, /* over DE_MAX_POPULATION */
    DE_BOUNDS = 4,          /* not finite, low over high, or past DE_MAX_REAL (Float) or DE_MAX_WHOLE (Int) */
    DE_LOG_SCALE = 5,       /* log scale of a Float, or of an Int with a step or with bounds outside 1 to
                             * DE_MAX_LADDER; in de_to_internal any log scale */
    DE_STEP = 6,            /* not finite, not above 0, past DE_MAX_WHOLE (Int), or over DE_MAX_STEPS steps (Float) */
    DE_CHOICES = 7,         /* no choice, or over DE_MAX_CHOICES */
    DE_HISTORY_NAN = 8,     /* the value of a complete entry of the history is NaN */
    DE_DIMENSIONS = 9,      /* a 17th dimension */
    DE_EXTRA_TRIALS = 10,   /* a 65th trial beyond the population in one generation */
    /* 11 is unused since 0.9.0, and no call gives it. It stood for an entry of a new candidate that is NaN. */
    /* Of saved files alone; docs/SAVED.md has both checks word by word. */
    DE_BAD_FILE = 12,    /* empty, no multiple of 32 bytes, a broken chain; in saving: the lent memory is too short */
    DE_BAD_CONTENT = 13, /* what the file holds, or the state that is to be saved, is none that a sampler can have
                          * (DeState); in saving also: the state's bounds rule is DE_MIDPOINT or one of its dimensions
                          * is a ladder, for which a file has no place yet */
    /* Of metrics exports alone. */
    DE_MALFORMED_LINE = 14, /* a line is malformed; `line` is the number of the first such line, from 1 */
    DE_SHORT_HISTORY = 15,  /* every line is well, and the lent history has fewer places than there are entries */
    /* Of sweeps alone; kinds have these numbers too, and mean something else. */
    DE_UNSWEEPABLE = 16, /* no dimension, more than DE_MAX_DIMENSIONS, or one that is a Float or a ladder */
    DE_TOO_MANY = 17     /* more combinations than DE_MAX_COMBINATIONS, or than the lent memory holds */
};

/* What a refusal says, in a sentence without its number; of a number that is no refusal, that it is none. */
const char *de_refusal_text(uint64_t refusal);

enum { DE_RAND1 = 0, DE_BEST1 = 1, DE_CURRENT_TO_BEST1 = 2 };

/* The bounds rule: what a mutant's entry beyond a bound becomes in a candidate. DE_CLAMP: the bound itself, so that
 * candidates pile up there. DE_MIDPOINT: it is drawn in, to half the sum of the parent's entry and that bound (the sum
 * is rounded, then its half), and then clamped. An entry that a candidate has from its parent is clamped under both.
 * docs/GUIDE.md shows which to choose. */
enum { DE_CLAMP = 0, DE_MIDPOINT = 1 };

typedef struct DeSetup {
    double mutation_factor; /* F, 0 to 2 */
    double crossover_rate;  /* CR, 0 to 1 */
    uint64_t strategy;      /* DE_RAND1, DE_BEST1 or DE_CURRENT_TO_BEST1 */
    uint64_t sized;         /* DE_YES: population_size is given; DE_NO: it follows from the dimensions */
    uint64_t population_size;
    uint64_t seed;        /* nothing is seeded at random */
    uint64_t bounds_rule; /* DE_CLAMP or DE_MIDPOINT: 0, as where no initializer names the field, is clamp */
} DeSetup;

/* The Rust's defaults, and seed 0. To be started from: a zeroed set-up is accepted too, and has F = 0 and CR = 0. */
#define DE_SETUP_DEFAULT                                                                                               \
    { 0.8, 0.9, DE_RAND1, DE_NO, 0, 0, DE_CLAMP }

/* Fields that the kind has no use for are not read.
 *
 * An Int with `log_scale` DE_YES is a ladder, for numbers whose ratio matters and not their difference, such as queue
 * depths. Its low is at least 1, its high at most DE_MAX_LADDER, and it has no step: DE_LOG_SCALE otherwise. R(p), the
 * rung at position p, is the whole part of 2^(p/256), p from 0 to 7,936. The inner bounds are positions: the lower is 0
 * for low 1, else the largest p with R(p) below low; the upper is the least p with R(p) at least high. An entry is a
 * double between these two. To decode it, it is clamped to them and rounded to p, and R(p) is clamped to low and high.
 * In discovery, and past the last dimension, p is drawn from the inner bounds, both included. So 1 to 64 has 1,537
 * positions, of which a setting has
 *
 *     setting             1     2     3     4     5     8    16    32    63    64
 *     first position      0   256   406   512   595   768 1,024 1,280 1,531 1,536
 *     positions         256   150   106    83    67    44    23    12     5     1
 *
 * and from each number up to its double there are 256. A whole number above 373 may be no rung: it is never a setting
 * then, unless it is low or high. */
typedef struct DeDistribution {
    uint64_t kind;     /* DE_FLOAT, DE_INT or DE_CHOICE */
    double low, high;  /* Float */
    int64_t whole_low; /* Int */
    int64_t whole_high;
    uint64_t log_scale; /* DE_YES: an Int is a ladder, and a Float is refused; DE_NO: no log scale */
    uint64_t stepped;   /* DE_YES: the step is given; DE_NO: there is none */
    double step;        /* Float */
    int64_t whole_step; /* Int */
    uint64_t n_choices; /* choice */
} DeDistribution;

typedef struct DeCandidate {
    double x[DE_MAX_DIMENSIONS];
    uint16_t choices[DE_MAX_DIMENSIONS];
} DeCandidate;

typedef struct DeMember {
    DeCandidate candidate;
    double value;
} DeMember;

typedef struct DeTrialProgress {
    uint64_t number;
    uint64_t next_dim;
} DeTrialProgress;

/* The sampler's state, whole: it may be copied, kept and put back as bytes. To be read, not written: a state that was
 * changed is used if it is one that a sampler can have, and refused by DE_STATE_NOT_SOUND otherwise. No sampler can
 * have an entry (a place of `x`, in a candidate or in a parent) that is NaN, infinite or over 4e300 in size: a state
 * with one is refused so, and a saved file with one by DE_BAD_CONTENT. A field that a kind or flag has no use for may
 * hold any number (`named` DE_NO with `first` 77 is sound); the next setting zeroes it. */
typedef struct DeState {
    DeSetup setup;
    uint64_t named; /* DE_YES: `first` is the first trial's number */
    uint64_t first;
    uint64_t discovered; /* DE_YES: all dimensions are known */
    uint64_t n;          /* N, the number of slots, from then on */
    uint64_t n_dims;
    DeDistribution dims[DE_MAX_DIMENSIONS];
    DeCandidate candidates[DE_MAX_TRIALS];
    DeMember parents[DE_MAX_POPULATION];
    uint64_t n_trials;
    DeTrialProgress trials[DE_MAX_TRIALS];
    uint64_t best;
    uint64_t word; /* the generator */
    uint32_t closed;
    uint32_t idle;
} DeState;

typedef struct DeCall {
    uint64_t trial;
    DeDistribution distribution;
} DeCall;

/* The state of an entry: how its trial ended. One that was pruned or that failed is incomplete. */
enum { DE_COMPLETE = 0, DE_PRUNED = 1, DE_FAILED = 2 };

/* An entry of the history: a trial that has ended, and what was measured (less is better). Unless the state is
 * DE_COMPLETE, the value counts as +infinity whatever it is, and NaN is accepted. */
typedef struct DeCompletedTrial {
    uint64_t number;
    double value;
    uint64_t state; /* DE_COMPLETE, DE_PRUNED or DE_FAILED: 0, as zeroed memory has it, is complete */
} DeCompletedTrial;

/* Fields that the kind has no use for are 0. */
typedef struct DeAnswer {
    uint64_t kind;
    uint64_t refusal;
    double real;
    int64_t whole;
    uint64_t choice;
    uint64_t draws; /* how many numbers the generator gave for this call */
} DeAnswer;

typedef struct DeLook {
    uint64_t kind;
    uint64_t refusal;
    uint64_t best;   /* the best slot */
    uint64_t n;      /* how many slots; the first n values are theirs */
    uint64_t closed; /* closed generations */
    /* Closed generations since the least of the values last became numerically smaller (a tie is no change, nor is a
     * zero of the other sign); 0 up to and at the first closing. */
    uint64_t idle;
    double values[DE_MAX_POPULATION];
} DeLook;

typedef struct DeSetting {
    uint64_t kind; /* DE_FLOAT, DE_INT or DE_CHOICE */
    double real;
    int64_t whole;
    uint64_t choice;
} DeSetting;

typedef struct DeInternal {
    uint64_t kind; /* DE_REFUSED, DE_INTERNAL_VALUE or DE_UNKNOWN */
    uint64_t refusal;
    double value;
} DeInternal;

typedef struct DeFile {
    uint64_t kind; /* DE_REFUSED, DE_SAVED or DE_RESTORED; of the checked functions also one of the kinds from 16 on */
    uint64_t refusal;
    uint64_t length; /* DE_SAVED: of the file, in bytes; else 0 */
} DeFile;

typedef struct DeRead {
    uint64_t kind; /* DE_REFUSED or DE_READ; of the checked function also one of the kinds from 16 on */
    uint64_t refusal;
    uint64_t count; /* DE_READ: how many entries were read; else 0 */
    uint64_t line;  /* DE_MALFORMED_LINE: the line's number, from 1; else 0 */
} DeRead;

typedef struct DeCount {
    uint64_t kind; /* DE_REFUSED, DE_LISTED or DE_UNKNOWN; of the checked function also one of the kinds from 16 on */
    uint64_t refusal;
    uint64_t count; /* DE_LISTED: how many combinations there are; else 0 */
} DeCount;

/* Sets up *state: DE_MADE; or DE_REFUSED by DE_MUTATION_FACTOR, DE_CROSSOVER_RATE or DE_POPULATION_SIZE, the first that
 * applies; or DE_UNKNOWN where `strategy`, `sized` or `bounds_rule` names no case. Unless it is DE_MADE, *state is as
 * it was. */
DeAnswer de_new(DeState *state, DeSetup setup);

/* The next setting of a trial, the dimensions in the order in which the first trial asked for them. A setting of the
 * lent distribution's kind or of the dimension's own, with the draws counted, and *state is the state after the call;
 * or DE_UNKNOWN; or DE_REFUSED by the first refusal that applies. Where there is no setting, draws is 0 and *state is
 * as it was, bit for bit. The history is read and not kept; of two entries with one number the last counts, whatever
 * its state. An entry's state that names no case is DE_UNKNOWN, also in an entry that the call has no use for.
 *
 * The rule for callers: ask for all settings of a trial in one go, with no other trial's call in between and the same
 * history lent to each call; the first trial has asked for everything before any other trial calls. Never use a trial
 * number again, not for a second attempt either (after a restart: docs/GUIDE.md). Tell every trial once it has ended, a
 * killed one as failed. docs/FINDINGS.md shows what goes wrong otherwise.
 *
 * - After the first trial the lent distribution does not decide the answer. It is judged (DE_BOUNDS to DE_CHOICES), and
 *   the setting is decoded by the one that the first trial lent. Past the last dimension it is drawn from the lent one.
 * - A generation closes in the call that finds the results of its first N trials in the lent history. So a caller that
 *   runs one trial at a time may lend the last N results alone.
 * - A generation waits for a trial that is not told: beyond its N trials come extras, which do not compete, and the
 * 65th is refused by DE_EXTRA_TRIALS. Telling the missing trial frees it; a killed one is told as failed. */
DeAnswer de_sample(DeState *state, DeCall call, const DeCompletedTrial *history, size_t count);

/* The best slot and every slot's value; nothing before the first generation has closed; or DE_STATE_NOT_SOUND. */
DeLook de_look(const DeState *state);

/* The setting that a slot holds in a dimension, both counted from 0, decoded as de_sample decodes; for the best one,
 * ask for the slot `best` of a look. DE_NOTHING where there is no such slot or dimension yet, and before the first
 * generation has closed there is none; or DE_REFUSED by DE_STATE_NOT_SOUND. Nothing is drawn. */
DeAnswer de_slot_setting(const DeState *state, uint64_t slot, uint64_t dimension);

/* Writes the whole state as a saved file (docs/SAVED.md), so that a campaign goes on after a restart: DE_SAVED with the
 * file's length, at most DE_MAX_FILE; no byte past that length is touched. Or DE_REFUSED: by DE_BAD_CONTENT where the
 * state is none that a sampler can have, or its bounds rule is DE_MIDPOINT or one of its dimensions is a ladder, for
 * which a file has no place yet; then by DE_BAD_FILE where `room` is less than the length; nothing is written then.
 * Equal states have equal bytes. */
DeFile de_save(const DeState *state, uint8_t *file, size_t room);

/* Reads a saved file: DE_RESTORED, and *state is the state that was saved, with 0 in each field that a kind or flag has
 * no use for, bounds rule DE_CLAMP and no ladder; or DE_REFUSED by DE_BAD_FILE, then by DE_BAD_CONTENT, and *state is
 * as it was, bit for bit. What *state holds before is never read, as in de_new. The history is no part of a file: it
 * stays the caller's, and docs/GUIDE.md says what it must hold after a restart. */
DeFile de_restore(DeState *state, const uint8_t *file, size_t length);

/* Reads a metrics export into a history that de_sample can be lent: DE_READ with the count of entries, each of which is
 * complete; they stand in the history's first places in the text's order, and no place past them is touched. An empty
 * text has none. Or DE_REFUSED: by DE_MALFORMED_LINE with the number of the first malformed line, then, once every line
 * has been read well, by DE_SHORT_HISTORY where `places` is less than the count; nothing is written then.
 *
 * A line is a trial number, a comma, a value and a line feed; the last line has its line feed too. Nothing else is in
 * it: no space, no plus sign, no exponent, no carriage return, no `inf`, no `nan`; and no line is empty.
 *
 * - A trial number is 1 to 20 digits and at most 2^64 - 1. It may have zeros in front.
 * - A value is perhaps a minus, then 1 to 15 digits in all, with at most one point, which stands between two of them.
 *   It becomes the double nearest to the decimal, ties to even. A minus with zero gives minus zero. No value is NaN or
 *   infinite.
 *
 * A well-formed export has exactly as many entries as line feeds: count these to know the places that it needs. Two
 * lines with one number are two entries; de_sample says which counts. A trial that was pruned or failed is told beside
 * the export, behind what was read: there its entry is the last of its number. Lines that are read later go before
 * it. */
DeRead de_read_history(const uint8_t *text, size_t length, DeCompletedTrial *history, size_t places);

/* Lists every combination of the settings of n dimensions, each of which is a choice or an Int without log scale:
 * DE_LISTED with their count. Each combination stands once, in n numbers side by side, one for each dimension: a whole
 * number itself, or a choice from 0. Combination i is at places i x n to i x n + n - 1 of `out`. The last dimension
 * changes fastest, so the list rises: of two combinations that one stands first which has the smaller number in the
 * first dimension where they differ. No place past these count x n is touched.
 *
 * - Choices rise from 0. The values of an Int rise from low by the step, or by 1 without one, and never pass high.
 * - A high that no step meets is left out, though the entries of a campaign's candidates can be decoded to it: Int 1 to
 *   11 by 4 has 1, 5 and 9 in the list, and 11 too in a campaign.
 * - A Float has no list. Take an Int in its place that counts its steps, or whose values are places in a table of your
 *   own.
 *
 * Or DE_UNKNOWN where the `kind` of any dimension, or the `log_scale` or `stepped` of a Float or an Int, names no case.
 * Or DE_REFUSED: by the refusal from DE_BOUNDS to DE_CHOICES of the first dimension that has one, of all n, also behind
 * the 16th (which one it was, a call for each dimension alone says, with `room` 0); then by DE_UNSWEEPABLE where n is 0
 * or over DE_MAX_DIMENSIONS, or a dimension is a Float or a ladder; then by DE_TOO_MANY where there are more than
 * DE_MAX_COMBINATIONS, or `room` is less than count x n. Unless it is DE_LISTED, `out` is as it was.
 *
 * `room` counts numbers, not bytes. DE_MAX_COMBINATIONS x n are always enough, 8 MB at most (so not on a small stack):
 * with so many DE_TOO_MANY says that there are more combinations than DE_MAX_COMBINATIONS. No refusal says how many
 * there are. The memory of `dims` and that of `out` must not overlap. */
DeCount de_sweep(const DeDistribution *dims, size_t n, int64_t *out, size_t room);

/* The double that a setting stands for; refusals 4 to 7 of the distribution, DE_LOG_SCALE for a ladder too, and
 * DE_BOUNDS for an Int setting past 2^53; 0.0 where the kinds differ. */
DeInternal de_to_internal(DeDistribution distribution, DeSetting setting);

/* For a watchdog: how much one de_sample call can draw (`draws` of its answer), which is never over DE_MAX_DRAWS. With
 * N (`n`), D (`n_dims`) and the strategy (`setup.strategy`) of the state after the call, it is at most
 *
 * - N x (3,072 + D) under DE_RAND1, N x (2,048 + D) under the other two, in a call that closes a generation or ends
 *   discovery: `n_trials` is less after it than before, or `discovered` was DE_NO and is DE_YES;
 * - in any other call 1 where the trial already has a candidate (its number was among the first n_trials of `trials`
 *   before the call), and D where it has none;
 * - 0 where there is no setting.
 *
 * de_draw_ceiling does without the state before: by n, n_dims and strategy after a call it answers what bounds the
 * call whatever it did. That is n_dims where n is 0, since discovery has not ended then, and the first ceiling above
 * otherwise. It is 0 where n is over DE_MAX_POPULATION, n_dims is over DE_MAX_DIMENSIONS or the strategy names no case:
 * no sound state has these, and a refused call draws nothing.
 *
 * It may be asked ahead of a call too: where `discovered` is DE_YES, what it answers by the state before the call
 * bounds the call as well. Before that the next call may end discovery. Take the N and D that there will be then: a
 * size that is set is N, raised to DE_MIN_POPULATION; unset, N is the larger of 15 and 10 x the number of Float and Int
 * dimensions. */
uint64_t de_draw_ceiling(uint64_t n, uint64_t n_dims, uint64_t strategy);

/* One of each struct, as the library lays it out. In each struct the fields that are numbers hold 1, 2, .. in the order
 * of declaration, and an array of numbers holds two of these, in its first and last place. A field that is a struct
 * holds that struct's own marks, an array of structs holds them in its first and last place; neither takes a number.
 * All other places are 0. */
typedef struct DeMarks {
    DeSetup setup;
    uint64_t after_setup;
    DeDistribution distribution;
    uint64_t after_distribution;
    DeCall call;
    uint64_t after_call;
    DeAnswer answer;
    uint64_t after_answer;
    DeLook look;
    uint64_t after_look;
    DeSetting setting;
    uint64_t after_setting;
    DeInternal internal;
    uint64_t after_internal;
    DeCompletedTrial trial;
    uint64_t after_trial;
    DeState state;
    uint64_t after_state;
    DeFile file;
    uint64_t after_file;
    DeRead read;
    uint64_t after_read;
    DeCount count;
    uint64_t after_count;
} DeMarks;

DeMarks de_marks(void);

/* 1 where the checked functions, by the header that they were compiled with, and the proved code lay out the structs
 * alike. */
int de_layout_agrees(void);

/* The proved functions behind tests of their pointers. `memory` holds the state in its first sizeof(DeState) bytes and
 * is as it was unless there is a setting, or the state was made or restored. An empty history may be a null pointer. */
DeAnswer de_checked_new(void *memory, size_t size, const DeSetup *setup);
DeAnswer de_checked_sample(void *memory, size_t size, const DeCall *call, const DeCompletedTrial *history,
                           size_t count);
/* Here `kind` may also be one of the kinds from 16 on. */
DeLook de_checked_look(const void *memory, size_t size);
DeAnswer de_checked_slot_setting(const void *memory, size_t size, uint64_t slot, uint64_t dimension);
/* An empty file may be a null pointer. */
DeFile de_checked_save(const void *memory, size_t size, void *file, size_t room);
DeFile de_checked_restore(void *memory, size_t size, const void *file, size_t length);
/* An empty text may be a null pointer, and so may a history of no places. */
DeRead de_checked_read_history(const void *text, size_t length, DeCompletedTrial *history, size_t places);
/* No dimensions may be a null pointer, and so may a list of no places. */
DeCount de_checked_sweep(const DeDistribution *dims, size_t n, int64_t *out, size_t room);

#ifdef __cplusplus
}
#endif

#endif
