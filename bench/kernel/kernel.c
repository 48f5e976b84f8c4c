/* Has the system's own BPF judge and run programs: it loads each, attaches none, and runs it by BPF_PROG_TEST_RUN.

   A line of input is PROGRAM and then records with what r3 and r4 hold, all in hexadecimal digits: `PROGRAM RECORD:THIRD:FOURTH ..`, a record
   being the first bytes of its 128. The answer is a line: `r0 R0 ..` with a number for each record, or `refused WHY` with the last line
   of what the system says. The first line of all is `ready`, or `none WHY` where the system gives no BPF, and then the status is 0.

   The record is the value of an array that programs may only read, the stack is the system's, and a call of helper 1, 2 or 3 is one of a
   function of the same meaning behind the program. r4 is from 1 to 16 there too. CAP_BPF is kept and CAP_PERFMON is not: so what would
   tell an address is refused. */
#define _GNU_SOURCE
#include <errno.h>
#include <linux/bpf.h>
#include <linux/capability.h>
#include <stdint.h>
#include <stdio.h>
#include <stdlib.h>
#include <string.h>
#include <sys/syscall.h>
#include <unistd.h>

#define MOST 5000
#define CAP_BPF_NUMBER 39
#define CAP_NET_ADMIN_NUMBER 12

static struct bpf_insn code[MOST];
static int size;
static char why[1 << 20];
static int record_map, given_map, result_map;

static long bpf(int command, union bpf_attr *attr, size_t length) {
    return syscall(SYS_bpf, command, attr, length);
}

static int array(uint32_t bytes, uint32_t flags) {
    union bpf_attr attr = { .map_type = BPF_MAP_TYPE_ARRAY, .key_size = 4, .value_size = bytes, .max_entries = 1, .map_flags = flags };
    return (int)bpf(BPF_MAP_CREATE, &attr, sizeof attr);
}

static int set(int map, const void *value) {
    uint32_t key = 0;
    union bpf_attr attr = { .map_fd = (uint32_t)map, .key = (uint64_t)(uintptr_t)&key, .value = (uint64_t)(uintptr_t)value };
    return (int)bpf(BPF_MAP_UPDATE_ELEM, &attr, sizeof attr);
}

static uint64_t result(void) {
    uint32_t key = 0;
    uint64_t value = 0;
    union bpf_attr attr = { .map_fd = (uint32_t)result_map, .key = (uint64_t)(uintptr_t)&key, .value = (uint64_t)(uintptr_t)&value };
    if (bpf(BPF_MAP_LOOKUP_ELEM, &attr, sizeof attr)) abort();
    return value;
}

static void put(uint8_t opcode, int dst, int src, int off, int32_t imm) {
    code[size++] = (struct bpf_insn){ .code = opcode, .dst_reg = dst & 15, .src_reg = src & 15, .off = (int16_t)off, .imm = imm };
}

/* The address of an array's value. */
static void put_value(int dst, int map) {
    put(0x18, dst, BPF_PSEUDO_MAP_VALUE, 0, map);
    put(0, 0, 0, 0, 0);
}

/* The function in the place of a helper. */
static void put_helper(int number) {
    static const int32_t types[3] = { 808596289, 942880578, 943207233 }, minutes[3] = { 45, 45, 120 };
    if (number == 1) {
        for (int k = 0; k < 3; k++) {
            put(0xb7, 0, 0, 0, minutes[k]);
            put(0x15, 1, 0, 5 - 2 * k, types[k]);
        }
        put(0xb7, 0, 0, 0, 60);
    } else if (number == 2) {
        put(0xb7, 0, 0, 0, 10);
        put(0xa5, 1, 0, 3, 100);
        put(0xb7, 0, 0, 0, 15);
        put(0xa5, 1, 0, 1, 500);
        put(0xb7, 0, 0, 0, 20);
    } else {
        put(0xbf, 0, 1, 0, 0);
        put(0x0f, 0, 2, 0, 0);
    }
    put(0x95, 0, 0, 0, 0);
}

/* The program between what sets its registers and what keeps r0; each exit is a jump to the latter. */
static void lay_out(const struct bpf_insn *given, int count) {
    size = 0;
    put_value(5, given_map);
    put(0x61, 3, 5, 0, 0);
    put(0x61, 4, 5, 4, 0);
    put(0x57, 4, 0, 0, 15);
    put(0x07, 4, 0, 0, 1);
    put_value(1, record_map);
    put(0xb7, 2, 0, 0, 128);
    int start = size;
    for (int k = 0; k < count; k++) code[size++] = given[k];
    for (int k = start; k < size; k++) {
        if (code[k].code == 0x18) k++;
        else if (code[k].code == 0x95)
            code[k] = (struct bpf_insn){ .code = 0x05, .off = (int16_t)(start + count - k - 1) };
    }
    put_value(1, result_map);
    put(0x7b, 1, 0, 0, 0);
    put(0xb7, 0, 0, 0, 0);
    put(0x95, 0, 0, 0, 0);
    int at[4] = { 0 };
    for (int k = start; k < start + count; k++) {
        int number = code[k].imm;
        if (code[k].code == 0x18) k++;
        else if (code[k].code == 0x85 && number >= 1 && number <= 3) {
            if (!at[number]) {
                at[number] = size;
                put_helper(number);
            }
            code[k].src_reg = BPF_PSEUDO_CALL;
            code[k].imm = at[number] - k - 1;
        }
    }
}

static int load(void) {
    union bpf_attr attr = {
        .prog_type = BPF_PROG_TYPE_SOCKET_FILTER, .insns = (uint64_t)(uintptr_t)code, .insn_cnt = (uint32_t)size,
        .license = (uint64_t)(uintptr_t)"GPL",
    };
    int program = (int)bpf(BPF_PROG_LOAD, &attr, sizeof attr);
    if (program >= 0) return program;
    attr.log_level = 1;
    attr.log_size = sizeof why;
    attr.log_buf = (uint64_t)(uintptr_t)why;
    why[0] = 0;
    return (int)bpf(BPF_PROG_LOAD, &attr, sizeof attr);
}

static int run(int program) {
    static unsigned char packet[64];
    union bpf_attr attr = { .test = { .prog_fd = (uint32_t)program, .data_in = (uint64_t)(uintptr_t)packet, .data_size_in = sizeof packet } };
    return (int)bpf(BPF_PROG_TEST_RUN, &attr, sizeof attr);
}

/* What the system said last, but for its counts. */
static void print_why(void) {
    char *end = why + strlen(why), *last = why;
    while (end > why && end[-1] == '\n') *--end = 0;
    for (char *line = strtok(why, "\n"); line; line = strtok(NULL, "\n"))
        if (strncmp(line, "processed ", 10) && strncmp(line, "stack depth ", 12) && strncmp(line, "verification time", 17)) last = line;
    printf("refused %s\n", *last ? last : strerror(errno));
}

static int digits(const char *text, unsigned char *bytes, int most) {
    int count = 0;
    unsigned part;
    while (count < most && sscanf(text + 2 * count, "%2x", &part) == 1 && text[2 * count] > ' ' && text[2 * count] != ':') bytes[count++] = (unsigned char)part;
    return count;
}

static void answer(char *line) {
    static unsigned char bytes[8 * MOST];
    char *word = strtok(line, " \n");
    int count = digits(word, bytes, sizeof bytes) / 8;
    char *runs[4096];
    int asked = 0;
    while (asked < 4096 && (runs[asked] = strtok(NULL, " \n"))) asked++;
    lay_out((const struct bpf_insn *)bytes, count);
    int program = load();
    if (program < 0) {
        print_why();
        return;
    }
    printf("r0");
    for (int k = 0; k < asked; k++) {
        unsigned char record[128] = { 0 };
        uint32_t given[2];
        digits(runs[k], record, sizeof record);
        if (sscanf(strchr(runs[k], ':'), ":%x:%x", &given[0], &given[1]) != 2) abort();
        given[1]--;
        if (set(record_map, record) || set(given_map, given)) abort();
        if (run(program)) {
            printf(" failed-%d", errno);
            continue;
        }
        printf(" %llx", (unsigned long long)result());
    }
    printf("\n");
    close(program);
}

static int keep_capabilities(void) {
    struct __user_cap_header_struct header = { .version = _LINUX_CAPABILITY_VERSION_3 };
    struct __user_cap_data_struct data[2] = { { 0 }, { 0 } };
    data[0].effective = data[0].permitted = 1u << CAP_NET_ADMIN_NUMBER;
    data[1].effective = data[1].permitted = 1u << (CAP_BPF_NUMBER - 32);
    return (int)syscall(SYS_capset, &header, data);
}

int main(void) {
    if (keep_capabilities() == 0) {
        record_map = array(128, BPF_F_RDONLY_PROG);
        given_map = array(8, BPF_F_RDONLY_PROG);
        result_map = array(8, 0);
    } else record_map = -1;
    static const struct bpf_insn least[2] = { { .code = 0xb7 }, { .code = 0x95 } };
    int program = -1;
    if (record_map >= 0 && given_map >= 0 && result_map >= 0) {
        lay_out(least, 2);
        program = load();
    }
    if (program < 0 || run(program)) {
        printf("none %s\n", strerror(errno));
        return 0;
    }
    close(program);
    printf("ready\n");
    fflush(stdout);
    char *line = NULL;
    size_t room = 0;
    while (getline(&line, &room, stdin) > 0) {
        answer(line);
        fflush(stdout);
    }
    return 0;
}
