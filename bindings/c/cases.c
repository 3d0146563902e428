/* Tries every function of the library: 01's example, P7 in two batches, each refusal with what it leaves alone, forged
 * sessions, NULL with length 0, four threads. Its last line tells how many checks held.
 * usage: cases */
#define _DEFAULT_SOURCE
#include "cases.h"
#include <stdint.h>
#include <sys/mman.h>
#include <unistd.h>

#define SENTINEL 0xA5

unsigned long checks;

const float line_a[4] = {0, 1, 1, 0}, line_b[4] = {0, -1, -1, 0}, line_zero[4] = {0, 0, 1, 0};

void fails(const char *file, int line, const char *what) {
    fprintf(stderr, "library: %s:%d: not so: %s\n", file, line, what);
    exit(1);
}

static uint8_t *lend_room(size_t bytes) {
    static struct {
        uint8_t *at;
        size_t size;
    } pieces[256];
    static size_t next;
    size_t page = (size_t)sysconf(_SC_PAGESIZE), size = (bytes + page - 1) / page * page + page;
    uint8_t *at = mmap(NULL, size, PROT_READ | PROT_WRITE, MAP_PRIVATE | MAP_ANONYMOUS, -1, 0);
    if (at == MAP_FAILED || mprotect(at + size - page, page, PROT_NONE) != 0) {
        perror("library: no memory to lend");
        exit(2);
    }
    if (pieces[next].at != NULL) munmap(pieces[next].at, pieces[next].size);
    pieces[next].at = at;
    pieces[next].size = size;
    next = (next + 1) % 256;
    return at + size - page - bytes;
}

void *lend(const void *from, size_t bytes) {
    if (bytes == 0) return NULL;
    return memcpy(lend_room(bytes), from, bytes);
}

uint8_t *lend_buffer(size_t bytes) { return bytes == 0 ? NULL : memset(lend_room(bytes), SENTINEL, bytes); }

int is_untouched(const uint8_t *buffer, size_t from, size_t bytes) {
    for (size_t i = from; i < bytes; i++)
        if (buffer[i] != SENTINEL) return 0;
    return 1;
}

static unsigned digit(char c) { return c <= '9' ? (unsigned)(c - '0') : (unsigned)(c - 'A' + 10); }

bytes hex(const char *digits) {
    static uint8_t rooms[16][4096];
    static size_t next;
    uint8_t *room = rooms[next];
    size_t count = 0;
    next = (next + 1) % 16;
    for (; *digits != '\0'; digits++) {
        if (*digits == ' ') continue;
        room[count++] = (uint8_t)(16 * digit(digits[0]) + digit(digits[1]));
        digits++;
    }
    return (bytes){lend(room, count), count};
}

uint32_t bits(float number) {
    uint32_t pattern;
    memcpy(&pattern, &number, sizeof pattern);
    return pattern;
}

static void refusal_texts(void) {
    for (uint32_t i = 0; i < 16; i++)
        for (uint32_t k = 0; k < i; k++) HOLDS(strcmp(bm_refusal_text(i), bm_refusal_text(k)) != 0);
    HOLDS(strcmp(bm_refusal_text(16), bm_refusal_text(0xffffffff)) == 0);
}

int main(void) {
    refusal_texts();
    scene_cases();
    obstacle_cases();
    list_cases();
    log_cases();
    session_cases();
    forged_cases();
    null_cases();
    thread_cases();
    printf("cases: ok %lu\n", checks);
    return 0;
}
