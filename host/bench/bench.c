/*
 * bench.c: what sealing and each call of the archive cost, as tables in Markdown.
 */
#include "bytecipher.h"
#include "calls.h"
#include "exercises.h"
#include "groups.h"
#include "jazmotip.h"
#include "measure.h"
#include "openssl.h"
#include "planes.h"
#include "wordcipher.h"
#include "recordings.h"
#include "work.h"
#include "yardstick.h"

#include <stdio.h>
#include <stdlib.h>
#include <string.h>

/* -------------------------------------------------------------------------------------------------------------- Contestants */

static const jazmotip_nonce nonce = {WORK_CHANNEL, WORK_MAC, WORK_CLOCK};
static const struct bytecipher_nonce c_nonce = {WORK_CHANNEL, WORK_MAC, WORK_CLOCK};
static jazmotip_round_keys expanded;
static const struct openssl *openssl;

static uint64_t engine_count, engine_runs, c_count, c_runs;

static void engine_seal(void *work)
{
    struct work *w = work;
    jazmotip_payload_answer answer = jazmotip_seal(1, work_key, nonce, w->input, w->length, w->output, w->length);
    engine_count = answer.count;
    engine_runs = answer.runs;
}

static void engine_seal_expanded(void *work)
{
    struct work *w = work;
    engine_count = jazmotip_seal_expanded(1, expanded, nonce, w->input, w->length, w->output, w->length).count;
}

static void engine_open(void *work)
{
    struct work *w = work;
    engine_count = jazmotip_capture_open(work_settings, 41, w->input, w->length, w->output, w->length).count;
}

static void engine_open_near(void *work)
{
    struct work *w = work;
    engine_count = jazmotip_capture_open_near(work_settings, 41, w->input, w->length, w->output, w->length).answer.count;
}

/* 02, C-19: 16 sets with two keys each, the last of them the work's, and a user who may open all: 32 keys are expanded. */
static uint8_t class_sets[JAZMOTIP_SETS * JAZMOTIP_SETTINGS_OCTETS];
static uint8_t class_rights[JAZMOTIP_SETS];
static const jazmotip_caller class_caller = {JAZMOTIP_SETS, 1, 1};

/* The LLIDs of the other sets are above the work's. */
static void class_make(void)
{
    for (unsigned j = 0; j < JAZMOTIP_SETS; j++) {
        uint8_t *set = class_sets + j * JAZMOTIP_SETTINGS_OCTETS;
        memcpy(set, work_settings, JAZMOTIP_SETTINGS_OCTETS);
        set[40] = (uint8_t)(set[40] + JAZMOTIP_SETS - 1 - j);
        class_rights[j] = JAZMOTIP_MAY_SEE | JAZMOTIP_MAY_OPEN;
    }
}

/* A user with one set. */
static void engine_open_alone(void *work)
{
    static const jazmotip_caller alone = {1, 1, 1};
    struct work *w = work;
    engine_count =
        jazmotip_class_open(alone, work_settings, 41, class_rights, 1, w->input, w->length, w->output, w->length).count;
}

static void engine_open_class(void *work)
{
    struct work *w = work;
    engine_count = jazmotip_class_open(class_caller, class_sets, sizeof class_sets, class_rights, sizeof class_rights, w->input,
                                       w->length, w->output, w->length)
                       .count;
}

static void c_seal(void *work)
{
    struct work *w = work;
    struct wordcipher_answer answer = wordcipher_seal(work_key, c_nonce, w->input, w->length, w->output, w->length);
    c_count = answer.count;
    c_runs = answer.runs;
}

static void c_seal_expanded(void *work)
{
    struct work *w = work;
    c_count = wordcipher_seal_expanded(expanded.octets, c_nonce, w->input, w->length, w->output, w->length).count;
}

/* Every block run: without 02, C-17. */
static void every_seal(void *work)
{
    struct work *w = work;
    c_count = wordcipher_seal_every(work_key, c_nonce, w->input, w->length, w->output, w->length).count;
}

static void every_seal_expanded(void *work)
{
    struct work *w = work;
    c_count = wordcipher_seal_expanded_every(expanded.octets, c_nonce, w->input, w->length, w->output, w->length).count;
}

static void tables_seal(void *work)
{
    struct work *w = work;
    c_count = bytecipher_seal(work_key, c_nonce, w->input, w->length, w->output, w->length).count;
}

static void tables_seal_expanded(void *work)
{
    struct work *w = work;
    c_count = bytecipher_seal_expanded(expanded.octets, c_nonce, w->input, w->length, w->output, w->length).count;
}

static void open_by(bytecipher_sealer *seal, struct work *w)
{
    uint8_t keys[2][176];
    bytecipher_expand(work_settings + 1, keys[0]);
    bytecipher_expand(work_settings + 17, keys[1]);
    c_count = bytecipher_open_block(seal, keys[0], keys[1], work_settings, 41, w->input, w->length, w->output, w->length).count;
}

static void c_open(void *work)
{
    open_by(wordcipher_seal_eqs, work);
}

static void tables_open(void *work)
{
    open_by(bytecipher_seal_eqs, work);
}

/* ----------------------------------------------------------------------------------------------------------------- Equality */

static uint64_t hash_after(void (*here)(void *), struct work *w)
{
    memset(w->output, 0, w->length);
    here(w);
    return work_hash(w->output, w->length);
}

static void same(uint64_t a, uint64_t b, const struct work *w, const char *what)
{
    if (a != b) {
        fprintf(stderr, "%s and the engine differ on %zu EQs in %zu records\n", what, w->eqs, w->records);
        exit(1);
    }
}

/* Every contestant makes the engine's octets and count of every work, and the C cipher those of the idle ones. */
static void check_works(void)
{
    for (int i = 0; i < IDLE_WORKS; i++) {
        same(hash_after(c_seal, &idle_works[i]), hash_after(engine_seal, &idle_works[i]), &idle_works[i], "the C cipher");
        same(c_count, engine_count, &idle_works[i], "the C cipher's count");
        same(c_runs, engine_runs, &idle_works[i], "the C cipher's runs");
    }
    for (int i = 0; i < WORKS; i++) {
        struct work *w = &works[i];
        int block = w->records > 0;
        uint64_t engine = hash_after(block ? engine_open : engine_seal, w);
        same(hash_after(block ? c_open : c_seal, w), engine, w, "the C cipher");
        same(c_count, engine_count, w, "the C cipher's count");
        same(hash_after(block ? tables_open : tables_seal, w), engine, w, "the C cipher of two tables");
        same(c_count, engine_count, w, "its count");
        if (block) {
            same(hash_after(engine_open_near, w), engine, w, "the near way");
            same(c_count, engine_count, w, "its count");
            same(hash_after(engine_open_alone, w), engine, w, "a user of one set");
            same(c_count, engine_count, w, "its count");
            same(hash_after(engine_open_class, w), engine, w, "a user of 16 sets");
            same(c_count, engine_count, w, "its count");
        } else {
            same(hash_after(engine_seal_expanded, w), engine, w, "the expanded key");
            same(c_runs, engine_runs, w, "the C cipher's runs");
            same(hash_after(c_seal_expanded, w), engine, w, "the C cipher's expanded key");
            same(hash_after(every_seal, w), engine, w, "the C cipher with every block run");
            same(c_count, engine_count, w, "its count");
            same(hash_after(every_seal_expanded, w), engine, w, "its expanded key");
            same(hash_after(tables_seal_expanded, w), engine, w, "the expanded key of the C cipher of two tables");
            same(jazmotip_count(w->input, w->length), engine_count, w, "count");
        }
        if (openssl != NULL) {
            same(hash_after(openssl->seal, w), engine, w, "OpenSSL");
            same(openssl->bare_hash(w), engine, w, "OpenSSL without AES instructions");
        }
    }
}

/* ------------------------------------------------------------------------------------------------------------------ Sealing */

enum { ENGINE, C, EVERY, TABLES, BARE, OPENSSL, ENGINE_EXPANDED, C_EXPANDED, EVERY_EXPANDED, TABLES_EXPANDED, CONTESTANTS };

static struct rounds rounds[WORKS];

static int is_largest(const struct work *w)
{
    return w->eqs == JAZMOTIP_MAX_EQS;
}

static void measure_work(int i)
{
    struct work *w = &works[i];
    int block = w->records > 0, expanding = !block && !is_largest(w);
    struct contestant all[CONTESTANTS] = {
        [ENGINE] = {.here = block ? engine_open : engine_seal, .job = w},
        [C] = {.here = block ? c_open : c_seal, .job = w},
        [EVERY] = {.here = block ? NULL : every_seal, .job = w},
        [TABLES] = {.here = block ? tables_open : tables_seal, .job = w},
        [BARE] = {.there = openssl != NULL ? openssl->bare_seal : NULL, .job = w},
        [OPENSSL] = {.here = openssl != NULL ? openssl->seal : NULL, .job = w},
        [ENGINE_EXPANDED] = {.here = expanding ? engine_seal_expanded : NULL, .job = w},
        [C_EXPANDED] = {.here = expanding ? c_seal_expanded : NULL, .job = w},
        [EVERY_EXPANDED] = {.here = expanding ? every_seal_expanded : NULL, .job = w},
        [TABLES_EXPANDED] = {.here = expanding ? tables_seal_expanded : NULL, .job = w},
    };
    measure_rounds(&rounds[i], all, CONTESTANTS, is_largest(w) ? 15 : 151, 1e6);
}

static const char *name_of(int i)
{
    static const char *const blocks[WORKS] = {
        [WORKS_PAYLOADS] = "block: 253 records of 8 EQs, one of 4,580",
        [WORKS_PAYLOADS + 1] = "block: 254 records of 26 EQs",
        [WORKS_PAYLOADS + 2] = "block: 1 record of 7,278 EQs",
    };
    return blocks[i] != NULL ? blocks[i] : measure_commas((double)works[i].eqs);
}

static double megabytes(const struct work *w, struct spread cost)
{
    return (double)w->length / cost.median * 1e3;
}

static void print_rate(int i, int k)
{
    printf(" %s |", measure_commas(megabytes(&works[i], measure_cost(&rounds[i], k))));
}

static void print_ratio(int i, int k, int of)
{
    struct spread s = measure_ratio(&rounds[i], k, of);
    printf(" **%.2f** (%.2f to %.2f) |", s.median, s.low, s.high);
}

static void print_sealing(void)
{
    printf("| EQs | octets | engine, ns a call | ns an EQ | MB/s | C, MB/s | engine of C | engine of C without C-17 | C of two tables, MB/s | engine of it |");
    if (openssl != NULL)
        printf(" OpenSSL without AES instructions, MB/s | engine of it | OpenSSL with them, MB/s | engine of it |");
    printf("\n|---|---:|---:|---:|---:|---:|---:|---:|---:|---:|%s\n", openssl != NULL ? "---:|---:|---:|---:|" : "");
    for (int i = 0; i < WORKS; i++) {
        double ns = measure_cost(&rounds[i], ENGINE).median;
        printf("| %s | %s | %s | %.1f |", name_of(i), measure_commas((double)works[i].length), measure_commas(ns),
               ns / (double)works[i].eqs);
        print_rate(i, ENGINE);
        print_rate(i, C);
        print_ratio(i, ENGINE, C);
        if (works[i].records == 0)
            print_ratio(i, ENGINE, EVERY);
        else
            printf(" |");
        print_rate(i, TABLES);
        print_ratio(i, ENGINE, TABLES);
        if (openssl != NULL) {
            print_rate(i, BARE);
            print_ratio(i, ENGINE, BARE);
            print_rate(i, OPENSSL);
            print_ratio(i, ENGINE, OPENSSL);
        }
        printf("\n");
    }
    printf("\n| EQs, the key expanded before | engine, ns a call | MB/s | C, MB/s | engine of C | engine of C without C-17 | C of two tables, MB/s | engine of it |\n"
           "|---|---:|---:|---:|---:|---:|---:|---:|\n");
    for (int i = 0; i < WORKS_PAYLOADS && !is_largest(&works[i]); i++) {
        printf("| %s | %s |", name_of(i), measure_commas(measure_cost(&rounds[i], ENGINE_EXPANDED).median));
        print_rate(i, ENGINE_EXPANDED);
        print_rate(i, C_EXPANDED);
        print_ratio(i, ENGINE_EXPANDED, C_EXPANDED);
        print_ratio(i, ENGINE_EXPANDED, EVERY_EXPANDED);
        print_rate(i, TABLES_EXPANDED);
        print_ratio(i, ENGINE_EXPANDED, TABLES_EXPANDED);
        printf("\n");
    }
    printf("\n");
}

/* What OpenSSL's cipher does without the mask, and whether its AES instructions were off when they should be. */
static void print_stream(void)
{
    struct work *w = &works[4];
    static struct rounds streams;
    const struct contestant both[] = {{.there = openssl->bare_stream, .job = w}, {.here = openssl->stream, .job = w}};
    measure_rounds(&streams, both, 2, 101, 1e6);
    printf("OpenSSL's key stream alone for %s EQs, with no mask: %s MB/s without AES instructions, %s MB/s with them%s.\n\n",
           name_of(4), measure_commas(megabytes(w, measure_cost(&streams, 0))),
           measure_commas(megabytes(w, measure_cost(&streams, 1))),
           measure_ratio(&streams, 1, 0).median >= 1.5 ? "" : "; no drop: this processor has none, or OpenSSL kept them");
}

/* The engine on 64 EQs and more, in turn. Gives the most that an EQ costs, as a part of what it costs at 64. */
static double print_flatness(void)
{
    enum { FROM = 2, SIZES = WORKS_PAYLOADS - FROM };
    static struct rounds flat;
    struct contestant sizes[SIZES];
    double most = 0;
    for (int k = 0; k < SIZES; k++)
        sizes[k] = (struct contestant){.here = engine_seal, .job = &works[FROM + k]};
    measure_rounds(&flat, sizes, SIZES, 11, 3e7);
    printf("| EQs | ns an EQ | of the cost at 64 EQs |\n|---:|---:|---:|\n");
    for (int k = 0; k < SIZES; k++) {
        double eqs = (double)works[FROM + k].eqs, scale = 64 / eqs;
        struct spread s = measure_ratio(&flat, 0, k);
        printf("| %s | %.1f | %.2f (%.2f to %.2f) |\n", name_of(FROM + k), measure_cost(&flat, k).median / eqs, s.median * scale,
               s.low * scale, s.high * scale);
        most = s.median * scale > most ? s.median * scale : most;
    }
    printf("\n");
    return most;
}

/* 02, C-17: what idle blocks save, beside the same payload with none. Gives how many times faster one that is idle alone is. */
static double print_idle(void)
{
    static struct rounds idle;
    struct contestant all[1 + IDLE_WORKS] = {{.here = engine_seal, .job = &works[3]}};
    for (int i = 0; i < IDLE_WORKS; i++)
        all[1 + i] = (struct contestant){.here = engine_seal, .job = &idle_works[i]};
    measure_rounds(&idle, all, 1 + IDLE_WORKS, 151, 1e6);
    printf("| 1,500 EQs, idle blocks | runs | ns an EQ | of the speed with none |\n|---:|---:|---:|---:|\n");
    for (int k = 0; k <= IDLE_WORKS; k++) {
        struct work *w = all[k].job;
        struct spread s = measure_ratio(&idle, k, 0);
        uint64_t runs = jazmotip_seal(1, work_key, nonce, w->input, w->length, w->output, w->length).runs;
        printf("| %d %% | %s | %.1f | %.2f (%.2f to %.2f) |\n", w->idle, measure_commas((double)runs),
               measure_cost(&idle, k).median / (double)w->eqs, s.median, s.low, s.high);
    }
    printf("\n");
    return measure_ratio(&idle, IDLE_WORKS, 0).median;
}

/* 02, C-18: a block opened in the near way, beside the usual one; its clocks need no correction. */
static void print_near(void)
{
    printf("| Opened in the near way | ns a call | of the usual speed |\n|---|---:|---:|\n");
    for (int i = WORKS_PAYLOADS; i < WORKS; i++) {
        static struct rounds near;
        const struct contestant both[] = {{.here = engine_open_near, .job = &works[i]}, {.here = engine_open, .job = &works[i]}};
        measure_rounds(&near, both, 2, 151, 1e6);
        struct spread s = measure_ratio(&near, 0, 1);
        printf("| %s | %s | %.2f (%.2f to %.2f) |\n", name_of(i), measure_commas(measure_cost(&near, 0).median), s.median, s.low,
               s.high);
    }
    printf("\n");
}

/* 02, C-19: a block opened for a user, beside document 01's reader. */
static void print_class(void)
{
    printf("| Opened for a user of a class | 1 set, ns a call | of the speed of 01's reader | 16 sets, 32 keys, ns a call | of it |\n"
           "|---|---:|---:|---:|---:|\n");
    for (int i = WORKS_PAYLOADS; i < WORKS; i++) {
        static struct rounds class;
        const struct contestant all[] = {{.here = engine_open_alone, .job = &works[i]},
                                         {.here = engine_open_class, .job = &works[i]},
                                         {.here = engine_open, .job = &works[i]}};
        measure_rounds(&class, all, 3, 151, 1e6);
        printf("| %s |", name_of(i));
        for (int k = 0; k < 2; k++) {
            struct spread s = measure_ratio(&class, k, 2);
            printf(" %s | %.2f (%.2f to %.2f) |", measure_commas(measure_cost(&class, k).median), s.median, s.low, s.high);
        }
        printf("\n");
    }
    printf("\n");
}

static void print_goals(double flatness, double idle)
{
    double least = measure_ratio(&rounds[3], ENGINE, C).median, eight = measure_ratio(&rounds[1], ENGINE, C).median;
    for (int i = 4; i < WORKS; i++) {
        double ratio = measure_ratio(&rounds[i], ENGINE, C).median;
        least = ratio < least ? ratio : least;
    }
    printf("| Goal | measured | |\n|---|---:|---|\n");
    printf("| at least 0.95 of the C cipher at 1,500 EQs and up, and on capture blocks | %.2f at least | %s |\n", least,
           least >= 0.95 ? "met" : "missed");
    printf("| no slower than the C cipher at 8 EQs, key set-up included | %.2f | %s |\n", eight, eight >= 1 ? "met" : "missed");
    printf("| cost of an EQ flat, within a twentieth, from 64 EQs to 4,194,303 | %.2f at most | %s |\n", flatness,
           flatness <= 1.05 ? "met" : "missed");
    printf("| a payload of idle blocks alone at least five times faster | %.1f | %s |\n\n", idle, idle >= 5 ? "met" : "missed");
}

static void print_method(void)
{
    printf("%s.\n\n", openssl != NULL ? openssl->version : "OpenSSL's headers are not on this machine: no column for it");
    printf("Contestants take turns in rounds on one processor; a figure is the median over the rounds, by processor time, and\n"
           "beside a ratio stand its lowest and highest tenth. MB are 10^6 octets of payload, control octets too. Key set-up is\n"
           "in every figure but where the key was expanded before. C is the same cipher (wordcipher.c: one table, doublings worked\n"
           "out, the rows of two blocks in words), and like the engine runs no block that has no octet to encipher and tells its runs;\n"
           "C without C-17 runs every block. C of two tables looks doublings up (bytecipher.c)%s.\n"
           "All contestants' octets were compared and are equal. Stack is what a call writes below its caller's: what is handed\n"
           "over by value counts, the answer does not.\n\n",
           openssl != NULL ? "; OpenSSL makes\nthe key stream in bulk (AES-128-CTR), and the mask of bytecipher.c follows" : "");
}

int main(int argc, char **argv)
{
    measure_pin();
    works_make();
    idle_works_make();
    if (argc > 1 && strcmp(argv[1], OPENSSL_BARE) == 0)
        return openssl_bare_main();
    if (argc > 1 && strcmp(argv[1], "--copies") == 0) {
        yardstick_print_copies();
        return 0;
    }
    openssl = openssl_start(argv[0]);
    expanded = jazmotip_expand_key(work_key);
    class_make();
    check_works();
    print_method();
    for (int i = 0; i < WORKS; i++)
        measure_work(i);
    print_sealing();
    if (openssl != NULL) {
        print_stream();
        openssl->stop();
    }
    double flatness = print_flatness(), idle = print_idle();
    print_near();
    print_class();
    yardstick_print();
    calls_print();
    groups_print();
    planes_print();
    recordings_print();
    exercises_print();
    print_goals(flatness, idle);
    return 0;
}
