/* The library's part in C: what C callers need before the proved functions (layouts, null pointers, short, misaligned
 * and overlapping memory are tested), the version, and the refusals' texts. */
#include <emkhurtov.h>

/* On x86-64, the only machine that the library is built for, these follow from the header; a compiler that lays out
 * otherwise stops here. */
_Static_assert(sizeof(DeSetup) == 56 && sizeof(DeDistribution) == 80 && sizeof(DeCandidate) == 160, "layout");
_Static_assert(sizeof(DeMember) == 168 && sizeof(DeTrialProgress) == 16 && sizeof(DeCompletedTrial) == 24, "layout");
_Static_assert(offsetof(DeState, dims) == 96 && offsetof(DeState, candidates) == 1376, "layout");
_Static_assert(offsetof(DeState, parents) == 37216 && offsetof(DeState, n_trials) == 64096, "layout");
_Static_assert(offsetof(DeState, idle) == 67708 && sizeof(DeState) == 67712, "layout");
_Static_assert(sizeof(DeCall) == 88 && sizeof(DeAnswer) == 48 && sizeof(DeLook) == 1328, "layout");
_Static_assert(sizeof(DeSetting) == 32 && sizeof(DeInternal) == 24 && sizeof(DeFile) == 24, "layout");
_Static_assert(sizeof(DeRead) == 32 && sizeof(DeCount) == 24, "layout");

const char *de_version(void) {
    return DE_VERSION;
}

const char *de_refusal_text(uint64_t refusal) {
    static const char *const texts[] = {
        [DE_STATE_NOT_SOUND] = "the state is none that a sampler can have",
        [DE_MUTATION_FACTOR] = "the mutation factor is not between 0 and 2",
        [DE_CROSSOVER_RATE] = "the crossover rate is not between 0 and 1",
        [DE_POPULATION_SIZE] = "the population size is over 160",
        [DE_BOUNDS] = "a bound is not finite or over its limit, or low is above high",
        [DE_LOG_SCALE] =
            "log scale of a Float, of an Int with a step or with bounds outside 1 to 2,147,483,648, or in to_internal",
        [DE_STEP] = "the step is not finite, not above 0, or gives too many steps",
        [DE_CHOICES] = "there are no choices, or more than 65,535",
        [DE_HISTORY_NAN] = "the value of a complete entry of the history is NaN",
        [DE_DIMENSIONS] = "the first trial asks for a 17th dimension",
        [DE_EXTRA_TRIALS] = "a 65th trial beyond the population asks in one generation",
        [DE_BAD_FILE] = "the file is empty, cut off or its chain is broken, or the lent memory is too short for it",
        [DE_BAD_CONTENT] = "what the file holds, or the state that is to be saved, is none that a sampler can have, or "
                           "the state's bounds rule is midpoint or one of its dimensions is a ladder",
        [DE_MALFORMED_LINE] = "a line of the metrics export is malformed",
        [DE_SHORT_HISTORY] = "the lent history has fewer places than the metrics export has entries",
        [DE_UNSWEEPABLE] = "there is no dimension, there are more than 16, or one is a Float or a ladder",
        [DE_TOO_MANY] = "there are more combinations than 65,536, or than the lent memory holds",
    };
    /* 11 is within the table and has no text. */
    const char *text = refusal < sizeof texts / sizeof *texts ? texts[refusal] : NULL;
    return text != NULL ? text : "no refusal has this number";
}

/* Each of these says whether the fields of a struct hold the marks that the header says. */
static int marked_setup(const DeSetup *s) {
    return s->mutation_factor == 1.0 && s->crossover_rate == 2.0 && s->strategy == 3 && s->sized == 4 &&
           s->population_size == 5 && s->seed == 6 && s->bounds_rule == 7;
}

static int marked_distribution(const DeDistribution *d) {
    return d->kind == 1 && d->low == 2.0 && d->high == 3.0 && d->whole_low == 4 && d->whole_high == 5 &&
           d->log_scale == 6 && d->stepped == 7 && d->step == 8.0 && d->whole_step == 9 && d->n_choices == 10;
}

static int marked_candidate(const DeCandidate *c) {
    return c->x[0] == 1.0 && c->x[DE_MAX_DIMENSIONS - 1] == 2.0 && c->choices[0] == 3 &&
           c->choices[DE_MAX_DIMENSIONS - 1] == 4;
}

static int marked_member(const DeMember *m) {
    return marked_candidate(&m->candidate) && m->value == 1.0;
}

static int marked_progress(const DeTrialProgress *t) {
    return t->number == 1 && t->next_dim == 2;
}

static int marked_state(const DeState *s) {
    return marked_setup(&s->setup) && s->named == 1 && s->first == 2 && s->discovered == 3 && s->n == 4 &&
           s->n_dims == 5 && marked_distribution(&s->dims[0]) && marked_distribution(&s->dims[DE_MAX_DIMENSIONS - 1]) &&
           marked_candidate(&s->candidates[0]) && marked_candidate(&s->candidates[DE_MAX_TRIALS - 1]) &&
           marked_member(&s->parents[0]) && marked_member(&s->parents[DE_MAX_POPULATION - 1]) && s->n_trials == 6 &&
           marked_progress(&s->trials[0]) && marked_progress(&s->trials[DE_MAX_TRIALS - 1]) && s->best == 7 &&
           s->word == 8 && s->closed == 9 && s->idle == 10;
}

static int marked_answer(const DeAnswer *a) {
    return a->kind == 1 && a->refusal == 2 && a->real == 3.0 && a->whole == 4 && a->choice == 5 && a->draws == 6;
}

static int marked_look(const DeLook *l) {
    return l->kind == 1 && l->refusal == 2 && l->best == 3 && l->n == 4 && l->closed == 5 && l->idle == 6 &&
           l->values[0] == 7.0 && l->values[DE_MAX_POPULATION - 1] == 8.0;
}

static int marked_setting(const DeSetting *s) {
    return s->kind == 1 && s->real == 2.0 && s->whole == 3 && s->choice == 4;
}

static int marked_internal(const DeInternal *i) {
    return i->kind == 1 && i->refusal == 2 && i->value == 3.0;
}

static int marked_trial(const DeCompletedTrial *t) {
    return t->number == 1 && t->value == 2.0 && t->state == 3;
}

static int marked_file(const DeFile *f) {
    return f->kind == 1 && f->refusal == 2 && f->length == 3;
}

static int marked_read(const DeRead *r) {
    return r->kind == 1 && r->refusal == 2 && r->count == 3 && r->line == 4;
}

static int marked_count(const DeCount *c) {
    return c->kind == 1 && c->refusal == 2 && c->count == 3;
}

int de_layout_agrees(void) {
    DeMarks m = de_marks();
    return marked_setup(&m.setup) && m.after_setup == 1 && marked_distribution(&m.distribution) &&
           m.after_distribution == 2 && m.call.trial == 1 && marked_distribution(&m.call.distribution) &&
           m.after_call == 3 && marked_answer(&m.answer) && m.after_answer == 4 && marked_look(&m.look) &&
           m.after_look == 5 && marked_setting(&m.setting) && m.after_setting == 6 && marked_internal(&m.internal) &&
           m.after_internal == 7 && marked_trial(&m.trial) && m.after_trial == 8 && marked_state(&m.state) &&
           m.after_state == 9 && marked_file(&m.file) && m.after_file == 10 && marked_read(&m.read) &&
           m.after_read == 11 && marked_count(&m.count) && m.after_count == 12;
}

/* 0 where the memory can hold a state, else the kind of answer that says why not. */
static uint64_t unfit(const void *memory, size_t size) {
    if (memory == NULL) {
        return DE_NULL_POINTER;
    }
    if (size < sizeof(DeState)) {
        return DE_SHORT_BUFFER;
    }
    if ((uintptr_t)memory % _Alignof(DeState) != 0) {
        return DE_MISALIGNED;
    }
    return 0;
}

DeAnswer de_checked_new(void *memory, size_t size, const DeSetup *setup) {
    DeAnswer answer = {0};
    answer.kind = setup == NULL ? DE_NULL_POINTER : unfit(memory, size);
    if (answer.kind == 0 && !de_layout_agrees()) {
        answer.kind = DE_LAYOUT;
    }
    return answer.kind != 0 ? answer : de_new(memory, *setup);
}

DeAnswer de_checked_sample(void *memory, size_t size, const DeCall *call, const DeCompletedTrial *history,
                           size_t count) {
    static const DeCompletedTrial none;
    DeAnswer answer = {0};
    answer.kind = call == NULL || (history == NULL && count != 0) ? DE_NULL_POINTER : unfit(memory, size);
    if (answer.kind == 0 && (uintptr_t)history % _Alignof(DeCompletedTrial) != 0) {
        answer.kind = DE_MISALIGNED;
    }
    if (answer.kind != 0) {
        return answer;
    }
    return de_sample(memory, *call, history == NULL ? &none : history, count);
}

DeLook de_checked_look(const void *memory, size_t size) {
    DeLook look = {0};
    look.kind = unfit(memory, size);
    return look.kind != 0 ? look : de_look(memory);
}

DeAnswer de_checked_slot_setting(const void *memory, size_t size, uint64_t slot, uint64_t dimension) {
    DeAnswer answer = {0};
    answer.kind = unfit(memory, size);
    return answer.kind != 0 ? answer : de_slot_setting(memory, slot, dimension);
}

/* Whether two pieces of memory have a byte in common. */
static int overlap(const void *one, size_t size, const void *other, size_t length) {
    uintptr_t a = (uintptr_t)one, b = (uintptr_t)other;
    return size != 0 && length != 0 && (b < a ? a - b < length : b - a < size);
}

/* How many bytes so many places are. No memory has more than SIZE_MAX, whatever their count says. */
static size_t bytes(size_t places, size_t size) {
    return places <= SIZE_MAX / size ? places * size : SIZE_MAX;
}

/* 0 where the memory can hold a state and the file stands beside it, else the kind of answer that says why not. */
static uint64_t unfit_with(const void *memory, size_t size, const void *file, size_t length) {
    uint64_t kind = file == NULL && length != 0 ? DE_NULL_POINTER : unfit(memory, size);
    return kind == 0 && overlap(memory, sizeof(DeState), file, length) ? DE_OVERLAPPING : kind;
}

DeFile de_checked_save(const void *memory, size_t size, void *file, size_t room) {
    uint8_t none = 0;
    DeFile answer = {0};
    answer.kind = unfit_with(memory, size, file, room);
    return answer.kind != 0 ? answer : de_save(memory, file == NULL ? &none : file, room);
}

DeFile de_checked_restore(void *memory, size_t size, const void *file, size_t length) {
    static const uint8_t none;
    DeFile answer = {0};
    answer.kind = unfit_with(memory, size, file, length);
    if (answer.kind == 0 && !de_layout_agrees()) {
        answer.kind = DE_LAYOUT;
    }
    return answer.kind != 0 ? answer : de_restore(memory, file == NULL ? &none : file, length);
}

DeRead de_checked_read_history(const void *text, size_t length, DeCompletedTrial *history, size_t places) {
    static const uint8_t no_text;
    DeCompletedTrial no_place = {0};
    size_t size = bytes(places, sizeof *history);
    DeRead answer = {0};
    if ((text == NULL && length != 0) || (history == NULL && places != 0)) {
        answer.kind = DE_NULL_POINTER;
    } else if ((uintptr_t)history % _Alignof(DeCompletedTrial) != 0) {
        answer.kind = DE_MISALIGNED;
    } else if (overlap(text, length, history, size)) {
        answer.kind = DE_OVERLAPPING;
    } else if (!de_layout_agrees()) {
        answer.kind = DE_LAYOUT;
    }
    if (answer.kind != 0) {
        return answer;
    }
    return de_read_history(text == NULL ? &no_text : text, length, history == NULL ? &no_place : history, places);
}

DeCount de_checked_sweep(const DeDistribution *dims, size_t n, int64_t *out, size_t room) {
    static const DeDistribution no_dimension;
    int64_t no_place = 0;
    DeCount answer = {0};
    if ((dims == NULL && n != 0) || (out == NULL && room != 0)) {
        answer.kind = DE_NULL_POINTER;
    } else if ((uintptr_t)dims % _Alignof(DeDistribution) != 0 || (uintptr_t)out % _Alignof(int64_t) != 0) {
        answer.kind = DE_MISALIGNED;
    } else if (overlap(dims, bytes(n, sizeof *dims), out, bytes(room, sizeof *out))) {
        answer.kind = DE_OVERLAPPING;
    } else if (!de_layout_agrees()) {
        answer.kind = DE_LAYOUT;
    }
    if (answer.kind != 0) {
        return answer;
    }
    return de_sweep(dims == NULL ? &no_dimension : dims, n, out == NULL ? &no_place : out, room);
}
