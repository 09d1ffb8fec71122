/* Every entry point of include/befrolan.h, with accepted and refused cases. What is expected was worked out by hand
 * from the rules (docs/RULES.md), never from what the library answers. A file of this folder has the calls of one subject;
 * lent.h has what they share.
 * Writes a line for each check that fails, then how many each subject has, and last how many there were; exits with 1
 * where any failed.
 *
 *     tools/staticlib
 *     cd tests/c && gcc *.c ../../target/staticlib/libbefrolan.a -o ../../target/calls && ../../target/calls
 */
#include "lent.h"

#include <stdio.h>

static int checks, failed;

void check(const char *file, int line, const char *what, int good)
{
    checks++;
    if (!good) {
        failed++;
        printf("%s, line %d: %s\n", file, line, what);
    }
}

static void subject(const char *name, void (*calls)(void))
{
    int before = checks;
    calls();
    printf("%s: %d checks\n", name, checks - before);
}

int main(void)
{
    subject("ApiVersions and agreement", api_versions);
    subject("Metadata and hosts", metadata_and_hosts);
    subject("Fetch responses", fetch_responses);
    subject("Fetch requests", fetch_requests);
    subject("frames and headers", frames);
    subject("texts, primitives and tagged fields", primitives);
    subject("versions outside all, and null slices", boundary);
    printf("%d checks, %d failed\n", checks, failed);
    return failed != 0;
}
