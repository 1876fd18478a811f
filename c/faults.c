/* Prints why a start, a journal or a state is refused, as the program mls says it:
 *
 *     faults START [JOURNAL | --state STATE]
 *
 * Without arguments it tests the texts of faults that no file brings, and prints 'ok'. */
#include "mls.h"

#include <stdio.h>
#include <stdlib.h>
#include <string.h>

enum { ROOM = 1 << 20 };

static uint8_t *read_file(const char *name, size_t *len) {
    FILE *file = fopen(name, "rb");
    uint8_t *bytes = malloc(ROOM);
    if (!file || !bytes) exit(2);
    *len = fread(bytes, 1, ROOM, file);
    fclose(file);
    return bytes;
}

/* Whether the text of a fault is this, also where the buffer has just its length, and not where it is shorter. */
static int says(int status, uint16_t kind, uint16_t number, uint64_t place, const char *text) {
    mls_fault fault = { kind, number, place };
    char buf[MLS_FAULT_TEXT];
    size_t len = 0, all = strlen(text);
    int is_right = mls_fault_text(status, &fault, buf, sizeof buf, &len) == MLS_OK && len == all && !memcmp(buf, text, all);
    memset(buf, '#', sizeof buf);
    is_right = is_right && mls_fault_text(status, &fault, buf, all, &len) == MLS_OK && !memcmp(buf, text, all) && buf[all] == '#';
    memset(buf, '#', sizeof buf);
    is_right = is_right && mls_fault_text(status, &fault, buf, all - 1, &len) == MLS_ERANGE && len == all && buf[0] == '#';
    is_right = is_right && mls_fault_text(status, &fault, NULL, 0, &len) == MLS_ERANGE && len == all;
    if (!is_right) printf("%d %d %d: not '%s'\n", status, kind, number, text);
    return is_right;
}

static int texts(void) {
    const uint64_t last = UINT64_MAX;
    int all = says(MLS_ESTART, 8, 0, 0, "start 8 Memory") & says(MLS_ESTART, 9, 0, 0, "start 9 ?") &
              says(MLS_ESTART, 0, 0, 0, "start 0 ?") & says(MLS_ESTART, 3, 6, 0, "start 3 Scheme 6 Memory") &
              says(MLS_ESTART, 7, 10, 0, "start 7 Start 10 NotSecure") & says(MLS_ESTART, 7, 11, 0, "start 7 Start 11 ?");
    all &= says(MLS_EJOURNAL, 4, 0, 0, "line 1: entry 4 BadReply") & says(MLS_EJOURNAL, 5, 0, last, "line 18446744073709551615: entry 5 ?");
    all &= says(MLS_EREPLAY, 1, 0, last, "replay 1 Number at 18446744073709551615") &
           says(MLS_EREPLAY, 2, 1, 4, "replay 2 Differs at 4 expected created") &
           says(MLS_EREPLAY, 2, 17, last, "replay 2 Differs at 18446744073709551615 expected no discretionary");
    all &= says(MLS_ESTATE, 1, 0, 6, "line 7: not of a state") & says(MLS_ESTATE, 2, 0, 0, "a state of another start") &
           says(MLS_ESTATE, 3, 0, 0, "a state that is not secure") & says(MLS_ESTATE, 4, 0, 0, "?");
    all &= says(MLS_ENOMEM, 0, 0, 0, "no memory") & says(MLS_OK, 0, 0, 0, "ok") & says(5, 0, 0, 0, "?");
    if (all) printf("ok\n");
    return !all;
}

int main(int argc, char **argv) {
    mls_monitor m = MLS_INIT;
    mls_fault fault = { 0, 0, 0 };
    char text[MLS_FAULT_TEXT];
    size_t start_len, other_len, len;
    uint8_t *start, *other;
    int status;
    if (argc < 2) return texts();
    start = read_file(argv[1], &start_len);
    other = argc > 2 ? read_file(argv[argc - 1], &other_len) : NULL;
    if (!other) status = mls_open(&m, start, start_len, &fault);
    else if (argc > 3) status = mls_open_state(&m, start, start_len, other, other_len, 0, &fault);
    else status = mls_resume(&m, start, start_len, other, other_len, &fault);
    if (mls_fault_text(status, &fault, text, sizeof text, &len) != MLS_OK) return 2;
    printf("%.*s\n", (int)len, text);
    mls_close(&m);
    free(start);
    free(other);
    return 0;
}
