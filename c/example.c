/* A line of a reversing screen: the distance that the sensor sent, printed, and the word beside it. */
#include <stdio.h>
#include <string.h>

#include "okwazibelu.h"

static const char PACK[] = "one: i = 1 and v = 0; other:";
static const char PATTERN[] = "#,##0.0#";
static const char *const WORDS[6] = {"", "metre", "", "", "", "metres"};

static const uint8_t *bytes(const char *text) { return (const uint8_t *)text; }

static void show(const char *number) {
    uint64_t figures[8];
    uint8_t text[64];
    uint32_t no = okw_print(NULL, 0, bytes(PATTERN), strlen(PATTERN), bytes(number), strlen(number),
                            text, sizeof text, figures);
    if (no != 0) {
        printf("%s: refusal %u\n", number, no);
        return;
    }
    int length = (int)figures[1];
    no = okw_select(bytes(PACK), strlen(PACK), bytes(number), strlen(number), figures);
    if (no != 0) {
        printf("%s: refusal %u\n", number, no);
        return;
    }
    printf("%.*s %s\n", length, (const char *)text, WORDS[figures[1]]);
}

int main(void) {
    uint64_t figures[8];
    if (okw_check(bytes(PACK), strlen(PACK), figures) != 0) {
        printf("the pack is refused\n");
        return 1;
    }
    show("1");
    show("0.349");
    show("1234.567");
    show("12,5");
    return 0;
}
