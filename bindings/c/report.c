/* The report of some dies, as `flashrec audit` reads it (docs/FORMATS.md), made of the answers to questions. */
#include "maulgreen.h"
#include <stdbool.h>

/* What is written to, and the text that waits to be taken. */
struct out { mg_put put; void *to; size_t length; bool failed; char text[1024]; };

static void flush(struct out *out) {
    if (out->length && !out->failed) out->failed = out->put(out->to, out->text, out->length) != 0;
    out->length = 0;
}

static void put(struct out *out, char c) {
    if (out->length == sizeof out->text) flush(out);
    out->text[out->length++] = c;
}

static void put_text(struct out *out, const char *text) {
    while (*text) put(out, *text++);
}

static void put_number(struct out *out, uint64_t number) {
    char digits[20];
    int count = 0;
    do digits[count++] = (char)('0' + number % 10); while ((number /= 10));
    while (count) put(out, digits[--count]);
}

static void put_field(struct out *out, uint64_t number) {
    put(out, ',');
    put_number(out, number);
}

static void put_lateness(struct out *out, int64_t lateness) {
    put(out, ',');
    if (lateness < 0) put(out, '-');
    put_number(out, lateness < 0 ? -(uint64_t)lateness : (uint64_t)lateness);
}

static void put_names(struct out *out, const struct mg_name *names, uint32_t count) {
    for (uint32_t n = 0; n < count; n++) {
        if (n) put(out, ' ');
        for (int i = 0; i < 16; i++) {
            put(out, "0123456789abcdef"[names[n].bytes[i] >> 4]);
            put(out, "0123456789abcdef"[names[n].bytes[i] & 15]);
        }
    }
}

/* Room for `count` items, and for one at least. */
static void *room(size_t count, size_t size) { return mg_alloc((count ? count : 1) * size, 4); }

static void put_job(struct out *out, size_t die, uint32_t number, const struct mg_job_head *head,
                    const struct mg_job_outcome *outcome, const struct mg_name *reads, uint32_t work) {
    put_text(out, outcome->state == MG_WAIVED ? "waived" : head->collects ? "collect" : "job");
    put_field(out, die);
    put_field(out, number);
    put_field(out, head->task);
    put_field(out, head->release);
    put_field(out, head->due);
    put_field(out, work);
    if (outcome->state == MG_DONE) {
        put_field(out, outcome->completion);
        put_lateness(out, outcome->lateness);
    } else put_text(out, ",,");
    if (outcome->state != MG_WAITING && head->collects) put_field(out, outcome->given);
    else put(out, ',');
    put(out, ',');
    put_names(out, reads, outcome->reads);
    put(out, '\n');
}

/* The jobs and collections of a die, by number. */
static uint32_t put_jobs(struct out *out, size_t number_of_die, const mg_die *die) {
    uint32_t total, at = 0, refusal = mg_rows(die, NULL, 0, &total);
    if (refusal) return refusal;
    struct mg_row *rows = room(total, sizeof *rows);
    if (!rows) return MG_NO_MEMORY;
    refusal = mg_rows(die, rows, total, &total);
    for (uint32_t number = 0; !refusal; number++) {
        struct mg_job_head head;
        struct mg_job_outcome outcome;
        struct mg_name reads[64];
        refusal = mg_job(die, number, &head);
        if (!refusal) refusal = mg_outcome(die, number, &outcome, reads, 64);
        if (refusal) break;
        bool has_row = at < total && rows[at].number == number; /* what was waived has none */
        put_job(out, number_of_die, number, &head, &outcome, reads, has_row ? rows[at].work : 0);
        at += has_row;
    }
    mg_dealloc(rows);
    return refusal == MG_UNKNOWN_JOB ? MG_OK : refusal;
}

/* The certificate of a die that has one. */
static uint32_t put_certificate(struct out *out, size_t number_of_die, const mg_die *die) {
    struct mg_worst_job worst;
    struct mg_cert certificate;
    uint32_t refusal = mg_worst(die, &worst);
    if (!refusal) refusal = mg_certificate(die, &certificate, NULL, 0);
    if (refusal) return refusal == MG_NOTHING_DONE ? MG_OK : refusal;
    uint32_t *jobs = room(certificate.jobs, sizeof *jobs);
    if (!jobs) return MG_NO_MEMORY;
    refusal = mg_certificate(die, &certificate, jobs, certificate.jobs);
    if (!refusal) {
        put_text(out, "cert");
        put_field(out, number_of_die);
        put_field(out, certificate.job);
        put(out, ',');
        put_field(out, certificate.start);
        put_field(out, certificate.due);
        put(out, ',');
        put_field(out, certificate.completion);
        put_lateness(out, worst.lateness);
        put_text(out, ",,");
        for (uint32_t i = 0; i < certificate.jobs; i++) {
            if (i) put(out, ' ');
            put_number(out, jobs[i]);
        }
        put(out, '\n');
    }
    mg_dealloc(jobs);
    return refusal;
}

uint32_t mg_report(const mg_die *const *dies, size_t count, mg_put write, void *to) {
    struct out out = {write, to, 0, false, {0}};
    uint32_t refusal = MG_OK;
    if (!write || (!dies && count)) return MG_NULL_POINTER;
    put_text(&out, "row,die,job,task,release,due,work,completion,lateness,given,items\n");
    for (size_t i = 0; i < count && !refusal; i++) refusal = put_jobs(&out, i, dies[i]);
    for (size_t i = 0; i < count && !refusal; i++) refusal = put_certificate(&out, i, dies[i]);
    flush(&out);
    return refusal ? refusal : out.failed ? MG_NOT_TAKEN : MG_OK;
}
