/* The key host's side of padding and stripping: calls the archive's two functions as a key host does
 * and checks what they do. Built with -DWITH_OPENSSL it also signs and deciphers with real RSA keys.
 *
 *   key_host              run the checks
 *   key_host --spoil N    the same with the deliberate error N: must fail
 *   key_host --spoils     try every deliberate error, and see that each is noticed
 */
#include <stdio.h>
#include <stdlib.h>
#include <string.h>

#include "blocks.h"
#include "checks.h"
#include "spoils.h"
#ifdef WITH_OPENSSL
#include "rsa.h"
#endif

#ifdef WITH_OPENSSL
#define LAST_SPOIL (SPOILS - 1)

static void say_library(void) {
    printf("with %s; the RSA-2048 key is made for this run\n", rsa_library());
}

static void check_all(void) {
    check_blocks();
    check_rsa();
}
#else
#define LAST_SPOIL (FIRST_SPOIL_WITH_OPENSSL - 1)

static void say_library(void) {
    printf("without OpenSSL: blocks only, nothing is signed, deciphered or compared with 003\n");
}

static void check_all(void) {
    check_blocks();
}
#endif

static int verdict(unsigned long passed, unsigned long failed) {
    printf("%lu passed, %lu failed\n", passed, failed);
    return failed == 0 && passed > 0 ? 0 : 1;
}

static int run(void) {
    say_library();
    if (spoil != NO_SPOIL) {
        printf("spoil %d: %s\n", (int)spoil, spoil_name(spoil));
    }
    check_all();
    return verdict(checks_passed(), checks_failed());
}

/* Passed are the errors that were noticed and the conditions that some error made fail. */
static int run_spoils(void) {
    unsigned long noticed = 0, all;
    say_library();
    checks_quiet(true);
    for (int s = 1; s <= LAST_SPOIL; s++) {
        spoil = (enum spoil)s;
        checks_restart();
        check_all();
        printf("spoil %2d: %-48s %6lu checks failed\n", s, spoil_name(spoil), checks_failed());
        noticed += checks_failed() > 0;
    }
    unsigned long never = conditions_never_failed(&all);
    printf("%lu of %d errors noticed, %lu of %lu conditions failed at least once\n", noticed, LAST_SPOIL, all - never, all);
    return verdict(noticed + all - never, (unsigned long)LAST_SPOIL - noticed + never);
}

static int usage(void) {
    fprintf(stderr, "usage: key_host [--spoil N | --spoils]   (N from 1 to %d)\n", LAST_SPOIL);
    return 2;
}

int main(int argc, char **argv) {
    if (argc == 1) {
        return run();
    }
    if (argc == 2 && strcmp(argv[1], "--spoils") == 0) {
        return run_spoils();
    }
    if (argc == 3 && strcmp(argv[1], "--spoil") == 0) {
        int s = atoi(argv[2]);
        if (1 <= s && s <= LAST_SPOIL) {
            spoil = (enum spoil)s;
            return run();
        }
    }
    return usage();
}
