/* Runs libpcap's bpf_filter again and again, for a comparison of time.
 * bpf_filter PROGRAM TIMES CAPTURE: over all packets of a little-endian capture, which is mapped into memory.
 * The program is in the form of `tcpdump -ddd`. The records are looked at before the first run, as the debugger does
 * when it loads a capture. So the loop that is timed tests none of them, and counts nothing but the passes. */
#include <sys/types.h>
#include <sys/mman.h>
#include <sys/stat.h>
#include <fcntl.h>
#include <pcap/bpf.h>
#include <stdint.h>
#include <stdio.h>
#include <stdlib.h>
#include <string.h>

struct record {
    const unsigned char *bytes;
    uint32_t captured, wire;
};

static struct record record_at(const unsigned char *at) {
    struct record record = { .bytes = at + 16 };
    memcpy(&record.captured, at + 8, 4);
    memcpy(&record.wire, at + 12, 4);
    return record;
}

/* The number of whole records; *end becomes where they end. */
static unsigned long count_records(const unsigned char *at, const unsigned char **end) {
    unsigned long records = 0;
    for (; *end - at >= 16; records++) {
        struct record record = record_at(at);
        if (record.captured > *end - record.bytes) break;
        at = record.bytes + record.captured;
    }
    *end = at;
    return records;
}

static unsigned long count_passes(const struct bpf_insn *list, const unsigned char *at, const unsigned char *end) {
    unsigned long passes = 0;
    while (at < end) {
        struct record record = record_at(at);
        if (bpf_filter(list, record.bytes, record.wire, record.captured)) passes++;
        at = record.bytes + record.captured;
    }
    return passes;
}

int main(int argc, char **argv) {
    if (argc < 4) return 2;
    FILE *f = fopen(argv[1], "r");
    unsigned n;
    if (!f || fscanf(f, "%u", &n) != 1) return 2;
    struct bpf_insn *list = calloc(n, sizeof *list);
    for (unsigned i = 0; i < n; i++) {
        unsigned code, jt, jf, k;
        if (fscanf(f, "%u %u %u %u", &code, &jt, &jf, &k) != 4) return 2;
        list[i] = (struct bpf_insn){ code, jt, jf, k };
    }
    unsigned long times = strtoul(argv[2], 0, 10), passes = 0;
    int fd = open(argv[3], O_RDONLY);
    struct stat st;
    if (fd < 0 || fstat(fd, &st)) return 2;
    const unsigned char *file = mmap(0, st.st_size, PROT_READ, MAP_PRIVATE, fd, 0);
    if (file == MAP_FAILED) return 2;
    const unsigned char *end = file + st.st_size;
    unsigned long packets = count_records(file + 24, &end);
    for (; times > 0; times--) passes += count_passes(list, file + 24, end);
    printf("packets:%lu passes:%lu\n", packets, passes);
    return 0;
}
