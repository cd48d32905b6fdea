/* reading HOW FILE [records]: brings a capture with little-endian records into memory, goes over its records where that
 * is asked, and prints the bytes and the records. HOW is
 * zeroed: into fresh memory, whose next 128 KiB are zeroed before each read, as the toolchain's `read_to_end` does
 * plain: the same without the zeros
 * mapped: by mmap, where a page comes once something reads it: so it goes with `records` */
#include <fcntl.h>
#include <stdint.h>
#include <stdio.h>
#include <stdlib.h>
#include <string.h>
#include <sys/mman.h>
#include <sys/stat.h>
#include <unistd.h>

enum { CHUNK = 128 * 1024, HEADER = 24, RECORD = 16 };

static unsigned char *read_all(int file, size_t size, int zeroed) {
    unsigned char *bytes = malloc(size + CHUNK);
    if (!bytes) return NULL;
    for (size_t filled = 0; filled < size;) {
        if (zeroed) memset(bytes + filled, 0, CHUNK);
        ssize_t more = read(file, bytes + filled, CHUNK);
        if (more <= 0) return NULL;
        filled += (size_t)more;
    }
    return bytes;
}

static unsigned long count_records(const unsigned char *bytes, size_t size) {
    unsigned long records = 0;
    for (size_t at = HEADER; at + RECORD <= size; records++) {
        uint32_t captured;
        memcpy(&captured, bytes + at + 8, 4);
        at += RECORD + (size_t)captured;
    }
    return records;
}

int main(int count, char **words) {
    struct stat about;
    int file = count < 3 ? -1 : open(words[2], O_RDONLY);
    if (file < 0 || fstat(file, &about)) return 2;
    size_t size = (size_t)about.st_size;
    unsigned char *bytes;
    if (!strcmp(words[1], "mapped")) {
        bytes = mmap(NULL, size, PROT_READ, MAP_PRIVATE, file, 0);
        if (bytes == MAP_FAILED) return 2;
    } else {
        bytes = read_all(file, size, !strcmp(words[1], "zeroed"));
        if (!bytes) return 2;
    }
    printf("bytes:%zu records:%lu\n", size, count > 3 ? count_records(bytes, size) : 0);
    return 0;
}
