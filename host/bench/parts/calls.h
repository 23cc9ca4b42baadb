/*
 * calls.h: a program that names calls of the archive and does nothing else, so that a linker keeps what they need and drops the rest.
 */
#include "jazmotip.h"

#define KEEPS(...)                                                                                                                 \
    void *const kept[] = {__VA_ARGS__};                                                                                            \
    int main(int argc, char **argv)                                                                                                \
    {                                                                                                                              \
        (void)argv;                                                                                                                \
        return *(void *const volatile *)&kept[argc & 1] == 0;                                                                      \
    }
