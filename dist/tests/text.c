/* Calls the two functions that aren't proved, directly and by their addresses. */
#include <sec1.h>
#include <stdio.h>
#include <string.h>

int main(void)
{
    const char *(*text)(uint32_t) = sec1_status_text;
    uint32_t (*version)(void) = sec1_version;
    uint32_t status;
    for (status = 0; status <= SEC1_PEM + 1; status++)
        if (strcmp(text(status), sec1_status_text(status)) != 0)
            return 1;
    printf("%s %u\n", sec1_status_text(SEC1_OK), (unsigned)version());
    return version() != SEC1_VERSION;
}
