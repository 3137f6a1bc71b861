/* check_files KIND FILE..: whether each file is a document of the kind in DER: a line each, its name, a tab and "DER",
 * "not DER at 1" or "fault at 20: Truncated". The status is 0 where all are in DER, 1 where one isn't, and 3 where one
 * could not be judged. */
#include "common.h"

static int check_file(uint32_t kind, const char *name) {
    FILE *file = fopen(name, "rb");
    if (file == NULL) {
        perror(name);
        return FAILED;
    }
    size_t len;
    uint8_t *src = read_file(file, PKDER_OCTETS + 1, &len);
    int is_read = src != NULL && !ferror(file);
    fclose(file);
    if (!is_read) {
        fprintf(stderr, "%s: not read\n", name);
        free(src);
        return FAILED;
    }
    pkder_outcome outcome = pkder_check(kind, PKDER_DEPTH, PKDER_OCTETS, src, len);
    free(src);
    printf("%s\t", name);
    if (outcome.status == PKDER_ACCEPTED) {
        puts("DER");
        return DONE;
    }
    return print_outcome(stdout, &outcome);
}

int main(int count, char **words) {
    uint32_t kind = count < 3 ? 0 : number_of(words[1], kinds);
    if (kind == 0) {
        fputs("check_files KIND FILE..\n", stderr);
        return BAD_LINE;
    }
    int found = DONE;
    for (int i = 2; i < count; i++) {
        int status = check_file(kind, words[i]);
        status = status == REFUSED ? NOT_IN_DER : status;
        found = status > found ? status : found;
    }
    return fflush(stdout) != 0 ? FAILED : found;
}
