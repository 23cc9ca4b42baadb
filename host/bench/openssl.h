/*
 * openssl.h: sealing with OpenSSL's AES-128-CTR: the key stream made by OpenSSL in bulk, then the mask of bytecipher.c.
 *
 * OpenSSL looks at the processor once, when a process starts. So the contestant without AES instructions is this program again,
 * started with those instructions turned off (OPENSSL_ia32cap), on the same processor, and told over a pipe when its turn is.
 */
#ifndef OPENSSL_H
#define OPENSSL_H

#include <stddef.h>
#include <stdint.h>

/* Each job is a struct work. */
struct openssl {
    const char *version;
    void (*seal)(void *work);
    void (*stream)(void *work); /* the key stream alone */
    double (*bare_seal)(void *work, size_t times); /* without AES instructions */
    double (*bare_stream)(void *work, size_t times);
    uint64_t (*bare_hash)(void *work); /* of what bare_seal makes, as work_hash has it */
    void (*stop)(void);
};

/* The contestants, the second process of this program started; NULL where it was built without OpenSSL. */
const struct openssl *openssl_start(const char *program);

#define OPENSSL_BARE "--without-aes-instructions"

/* What the second process does. */
int openssl_bare_main(void);

#endif
