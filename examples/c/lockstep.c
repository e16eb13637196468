/* Lockstep, in what C and C++ have in common: a hypervisor's own VTL call and return run beside the model event by event. The hypervisor
 * here is a toy that keeps the active level and counts calls and returns. A right one agrees with the model on every event; one with a
 * mistake is caught at the event that shows it, with the model's reason. Any other outcome ends the program with status 1. */
#include "xalevinda.h"

#include <inttypes.h>
#include <stdio.h>
#include <stdlib.h>
#include <string.h>

/* The hypervisor under test. It answers as the model does: 0 done, 2 #UD. */
typedef struct {
    uint64_t active, calls, returns;
    int forgets_the_top; /* the mistake: the highest level may call once more */
} Hypervisor;

static uint64_t hypervisor_call(Hypervisor *h) {
    if (h->active == 1 && !h->forgets_the_top) {
        return XALEVINDA_UNDEFINED_OPCODE;
    }
    h->active = 1;
    h->calls++;
    return XALEVINDA_DONE;
}

static uint64_t hypervisor_return(Hypervisor *h) {
    if (h->active == 0) {
        return XALEVINDA_UNDEFINED_OPCODE;
    }
    h->active = 0;
    h->returns++;
    return XALEVINDA_DONE;
}

/* The events on both: the line that says it to the model, and the hypervisor's function. */
static const char *const CALL_LINE = "call\t0\t0\t3";
static const char *const RETURN_LINE = "ret\t0\t0\t3";

/* The machine of one processor with two levels: level 1 is enabled, and level 0 is out of real mode. */
static const char *const FIRST_LINE = "vsm\t1\t1\t2\t0\t15";
static const char *const SETUP[] = {"enpart\t0\t0\t1\t0", "envp\t0\t0\t0\t1\t4096\t8192\t1", "wreg\t0\t0\t0\t3\t1"};

static void fail(const char *what) {
    fprintf(stderr, "lockstep: %s\n", what);
    exit(1);
}

/* The model: its words, and what its last step showed. */
typedef struct {
    uint64_t words[XALEVINDA_MACHINE_WORDS];
    uint64_t shown[XALEVINDA_SHOWN_WORDS];
} Model;

static uint64_t model_step(Model *model, const char *line) {
    return xalevinda_step(model->words, XALEVINDA_MACHINE_WORDS, (const uint8_t *)line, strlen(line), model->shown,
                          XALEVINDA_SHOWN_WORDS);
}

static void model_open(Model *model) {
    if (xalevinda_open((const uint8_t *)FIRST_LINE, strlen(FIRST_LINE), model->words, XALEVINDA_MACHINE_WORDS)
        != XALEVINDA_REASON_NONE) {
        fail("the machine is not opened");
    }
    for (size_t i = 0; i < sizeof SETUP / sizeof *SETUP; i++) {
        if (model_step(model, SETUP[i]) != XALEVINDA_DONE) {
            fail("the machine is not set up");
        }
    }
}

/* Runs events beside the model until the two differ, and returns how many they agreed on. */
static size_t lockstep(Hypervisor *h, Model *model, size_t events) {
    uint64_t calls = 0, returns = 0, draw = 1;
    model_open(model);
    for (size_t i = 0; i < events; i++) {
        draw = draw * 6364136223846793005u + 1442695040888963407u;
        int is_call = (draw >> 33) % 2 == 0;
        uint64_t theirs = is_call ? hypervisor_call(h) : hypervisor_return(h);
        uint64_t ours = model_step(model, is_call ? CALL_LINE : RETURN_LINE);
        calls += is_call && ours == XALEVINDA_DONE;
        returns += !is_call && ours == XALEVINDA_DONE;
        if (theirs != ours || h->active != model->shown[XALEVINDA_SHOWN_LEVEL] || h->calls != calls || h->returns != returns) {
            return i;
        }
    }
    return events;
}

/* Slices that are too short, and words that are no machine, are answered, and nothing changes. */
static void check_edges(void) {
    Model model, before;
    const uint8_t line[1] = {0};
    model_open(&model);
    before = model;
    if (xalevinda_open((const uint8_t *)FIRST_LINE, strlen(FIRST_LINE), model.words, XALEVINDA_MACHINE_WORDS - 1)
            != XALEVINDA_REASON_SHORT_SLICE
        || xalevinda_open(line, 0, model.words, XALEVINDA_MACHINE_WORDS) != XALEVINDA_REASON_UNKNOWN_WORD
        || xalevinda_step(model.words, XALEVINDA_MACHINE_WORDS, (const uint8_t *)CALL_LINE, strlen(CALL_LINE), model.shown,
                          XALEVINDA_SHOWN_WORDS - 1)
            != XALEVINDA_MALFORMED
        || memcmp(&model, &before, sizeof model) != 0) {
        fail("a refusal changed something");
    }
    memset(model.words, 255, sizeof model.words);
    before = model;
    if (model_step(&model, CALL_LINE) != XALEVINDA_MALFORMED
        || model.shown[XALEVINDA_SHOWN_REASON] != XALEVINDA_REASON_NOT_WELL_FORMED
        || memcmp(model.words, before.words, sizeof model.words) != 0) {
        fail("words that are no machine");
    }
}

int main(void) {
    enum { EVENTS = 10000 };
    Model model;
    Hypervisor right = {0, 0, 0, 0}, wrong = {0, 0, 0, 1};
    check_edges();
    if (lockstep(&right, &model, EVENTS) != EVENTS) {
        fail("the right hypervisor differs");
    }
    printf("lockstep: %d events agree, with %" PRIu64 " calls and %" PRIu64 " returns\n", EVENTS, right.calls, right.returns);
    size_t event = lockstep(&wrong, &model, EVENTS);
    if (event == EVENTS || model.shown[XALEVINDA_SHOWN_REASON] != XALEVINDA_REASON_NO_HIGHER_LEVEL) {
        fail("the mistake is not found");
    }
    printf("lockstep: the mistake shows at event %zu; the model's reason is %" PRIu64 ", no higher level\n", event,
           model.shown[XALEVINDA_SHOWN_REASON]);
    return 0;
}
