/* What include/isdb.h and the library say of the version, and the answers in words. Ends with 1 where the two versions differ. */
#include <stdio.h>
#include "isdb.h"

int main(void) {
    printf("%s %d %u\n", ISDB_VERSION_STRING, ISDB_VERSION, (unsigned)isdb_version());
    for (uint32_t answer = 0; answer <= 16; answer++) printf("%u %s\n", (unsigned)answer, isdb_answer_text(answer));
    return isdb_version() == ISDB_VERSION && isdb_environment_ok() ? 0 : 1;
}
