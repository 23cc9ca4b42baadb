/* openssl.c: sealing with OpenSSL's AES-128-CTR. */
#define _GNU_SOURCE
#include "openssl.h"

#ifndef HAVE_OPENSSL

const struct openssl *openssl_start(const char *program)
{
    (void)program;
    return NULL;
}

int openssl_bare_main(void)
{
    return 1;
}

#else

#include "bytecipher.h"
#include "measure.h"
#include "work.h"

#include <openssl/crypto.h>
#include <openssl/evp.h>
#include <stdio.h>
#include <stdlib.h>
#include <sys/wait.h>
#include <unistd.h>

static void need(int ok, const char *what)
{
    if (!ok) {
        fprintf(stderr, "OpenSSL: %s failed\n", what);
        exit(1);
    }
}

/* ------------------------------------------------------------------------------------------------------------------ Sealing */

struct key {
    EVP_CIPHER_CTX *context;
};

static struct key keys[2];

static void make_keys(void)
{
    for (int i = 0; i < 2; i++) {
        keys[i].context = EVP_CIPHER_CTX_new();
        need(keys[i].context != NULL && EVP_EncryptInit_ex(keys[i].context, EVP_aes_128_ctr(), NULL, NULL, NULL), "start");
    }
}

static void set_key(struct key *key, const uint8_t octets[16])
{
    need(EVP_EncryptInit_ex(key->context, NULL, NULL, octets, NULL), "key set-up");
}

static void set_counter(const struct key *key, struct bytecipher_nonce nonce)
{
    uint8_t counter[16];
    bytecipher_counter(nonce, counter);
    need(EVP_EncryptInit_ex(key->context, NULL, NULL, NULL, counter), "counter block");
}

/* EQs whose key stream is made in one go: it stays in the nearest cache. */
enum { CHUNK = 512 };

static void make_stream(const struct key *key, uint8_t *stream, size_t eqs)
{
    static const uint8_t zeros[8 * CHUNK];
    int made;
    need(EVP_EncryptUpdate(key->context, stream, &made, zeros, (int)(8 * eqs)), "key stream");
}

static uint64_t seal_eqs(const void *key, struct bytecipher_nonce nonce, const uint8_t *input, uint8_t *output, size_t eqs)
{
    uint8_t stream[8 * CHUNK];
    uint64_t count = 0;
    set_counter(key, nonce);
    for (size_t e = 0; e < eqs; e += CHUNK) {
        size_t n = eqs - e < CHUNK ? eqs - e : CHUNK;
        make_stream(key, stream, n);
        count += bytecipher_mask(stream, input + 9 * e, output + 9 * e, n);
    }
    return count;
}

static const struct bytecipher_nonce nonce = {WORK_CHANNEL, WORK_MAC, WORK_CLOCK};

static void seal(void *work)
{
    struct work *w = work;
    if (w->records == 0) {
        set_key(&keys[0], work_key);
        seal_eqs(&keys[0], nonce, w->input, w->output, w->eqs);
    } else {
        set_key(&keys[0], work_settings + 1);
        set_key(&keys[1], work_settings + 17);
        bytecipher_open_block(seal_eqs, &keys[0], &keys[1], work_settings, 41, w->input, w->length, w->output, w->length);
    }
}

static void stream(void *work)
{
    struct work *w = work;
    uint8_t octets[8 * CHUNK];
    set_key(&keys[0], work_key);
    set_counter(&keys[0], nonce);
    for (size_t e = 0; e < w->eqs; e += CHUNK)
        make_stream(&keys[0], octets, w->eqs - e < CHUNK ? w->eqs - e : CHUNK);
}

/* ------------------------------------------------------------------------------------------------------- The second process */

struct request {
    int work;
    enum { SEAL, STREAM, HASH } what;
    size_t times;
};

struct reply {
    double ns;
    uint64_t hash;
};

static pid_t bare;
static int to_bare, from_bare;

static int send_octets(int fd, const void *octets, size_t length)
{
    return write(fd, octets, length) == (ssize_t)length;
}

static int get_octets(int fd, void *octets, size_t length)
{
    return read(fd, octets, length) == (ssize_t)length;
}

static struct reply ask(void *work, int what, size_t times)
{
    struct request request = {(int)((struct work *)work - works), what, times};
    struct reply reply;
    need(send_octets(to_bare, &request, sizeof request) && get_octets(from_bare, &reply, sizeof reply), "the second process");
    return reply;
}

static double bare_seal(void *work, size_t times)
{
    return ask(work, SEAL, times).ns;
}

static double bare_stream(void *work, size_t times)
{
    return ask(work, STREAM, times).ns;
}

static uint64_t bare_hash(void *work)
{
    return ask(work, HASH, 1).hash;
}

int openssl_bare_main(void)
{
    struct request request;
    make_keys();
    while (get_octets(0, &request, sizeof request)) {
        struct work *w = &works[request.work];
        struct reply reply = {measure_turns(request.what == STREAM ? stream : seal, w, request.times), 0};
        if (request.what == HASH)
            reply.hash = work_hash(w->output, w->length);
        if (!send_octets(1, &reply, sizeof reply))
            return 1;
    }
    return 0;
}

static void start_bare(const char *program)
{
    int down[2], up[2];
    need(pipe(down) == 0 && pipe(up) == 0, "pipe");
    bare = fork();
    need(bare >= 0, "fork");
    if (bare == 0) {
        dup2(down[0], 0);
        dup2(up[1], 1);
        close(down[0]), close(down[1]), close(up[0]), close(up[1]);
        /* AES and carry-less multiplication off */
        setenv("OPENSSL_ia32cap", "~0x200000200000000", 1);
        execl(program, program, OPENSSL_BARE, (char *)NULL);
        _exit(1);
    }
    close(down[0]), close(up[1]);
    to_bare = down[1];
    from_bare = up[0];
}

static void stop(void)
{
    close(to_bare), close(from_bare);
    waitpid(bare, NULL, 0);
}

const struct openssl *openssl_start(const char *program)
{
    static struct openssl openssl = {NULL, seal, stream, bare_seal, bare_stream, bare_hash, stop};
    openssl.version = OpenSSL_version(OPENSSL_VERSION);
    make_keys();
    start_bare(program);
    return &openssl;
}

#endif
