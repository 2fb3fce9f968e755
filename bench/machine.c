/* The machine in plain C, as a baseline for the proved one:

       gcc -O2 -o machine bench/machine.c
       machine IMAGE HARTS CYCLES

   It takes no input numbers. Each word of code is decoded once, into an operation and its fields. A
   cycle runs one instruction of each hart that has not ended, in ascending number. What the program
   prints goes to standard output, and how the run ended goes to standard error, with the number of
   cycles. With -DCOUNT_OPERATIONS it says behind that how many operations were done, by the image's
   table of commits. The host is little-endian, as x86-64 and AArch64 are. */
#include <stdbool.h>
#include <stdint.h>
#include <stdio.h>
#include <stdlib.h>
#include <string.h>

enum {
    SHARED_START = 0x10000000, SHARED_WORDS = 1 << 20,
    CONTROL_START = 0x18000000, CONTROL_WORDS = (1 << 20) + 64,
    LOCAL_START = 0x20000000, LOCAL_WORDS = 32768,
    /* a cache line more, so that one address of all harts isn't one set of the cache */
    LOCAL_STRIDE = LOCAL_WORDS + 16,
    OUT_INT = 0x30000000, OUT_CHAR = 0x30000004, FAULT = 0x30000008, HALT = 0x3000000c,
    CYCLE = 0x30000010, HART_ID = 0x30000014, HARTS = 0x30000018, INPUTS = 0x3000001c,
    MAX_HARTS = 1024, MAX_CODE = 262144, MAX_GLOBALS = 524288, MAX_SITES = 16000,
    HEADER_WORDS = 6,
    /* where a write to register 0 goes */
    SINK = 32,
    /* no word has this address */
    NO_RESERVATION = 1,
};

enum trap { FETCH = 1, UNKNOWN_WORD, MISALIGNED, ACCESS, ECALL_TRAP, EBREAK_TRAP };

enum operation {
    UNKNOWN, LUI, AUIPC, JAL, JALR, BEQ, BNE, BLT, BGE, BLTU, BGEU, LB, LH, LW, LBU, LHU, SB, SH, SW,
    ADDI, SLTI, SLTIU, XORI, ORI, ANDI, SLLI, SRLI, SRAI,
    ADD, SUB, SLL, SLT, SLTU, XOR, SRL, SRA, OR, AND, MUL, MULH, MULHSU, MULHU, DIV, DIVU, REM, REMU,
    FENCE, ECALL, EBREAK,
    LR, SC, SWAP, AMOADD, AMOXOR, AMOAND, AMOOR, AMOMIN, AMOMAX, AMOMINU, AMOMAXU,
};

struct instruction {
    uint8_t operation, rd, rs1, rs2;
    /* the immediate, sign-extended; that of lui and auipc shifted; the distance of a shift */
    uint32_t immediate;
};

struct hart {
    uint32_t x[33];
    uint32_t pc;
    /* the address of the word that is reserved */
    uint32_t reserved;
    bool ended;
};

enum stand { RUNNING, FINISHED, FAULTED, TRAPPED };

struct machine {
    struct instruction *code;
    uint32_t code_words;
    struct hart *harts;
    uint32_t hart_count;
    uint32_t running;
    uint32_t *shared;
    uint32_t *control;
    uint32_t *locals;
    uint32_t cycles;
    /* how many harts hold a reservation */
    uint32_t reservations;
    enum stand stand;
    uint32_t stopped_by, cause;
};

/* ---- operations */

#ifdef COUNT_OPERATIONS
static uint8_t operations_at[MAX_CODE];
static uint64_t operations;

static void count_operations(const struct hart *h)
{
    operations += h->pc / 4 < MAX_CODE ? operations_at[h->pc / 4] : 0;
}

static void read_commits(const uint32_t *commits, uint32_t count)
{
    for (uint32_t k = 0; k < count; k++)
        operations_at[commits[2 * k] / 4 % MAX_CODE] = (uint8_t)commits[2 * k + 1];
}
#else
#define count_operations(h) ((void)0)
#define read_commits(commits, count) ((void)0)
#endif

/* ---- output */

static char output[1 << 16];
static size_t output_length;

static void flush_output(void)
{
    if (fwrite(output, 1, output_length, stdout) != output_length || fflush(stdout) != 0)
        exit(4);
    output_length = 0;
}

static void print_byte(uint8_t byte)
{
    if (output_length == sizeof output)
        flush_output();
    output[output_length++] = (char)byte;
}

static void print_number(int32_t number)
{
    uint32_t rest = number < 0 ? 0u - (uint32_t)number : (uint32_t)number;
    char digits[10];
    int count = 0;

    do {
        digits[count++] = (char)('0' + rest % 10);
        rest /= 10;
    } while (rest != 0);
    if (number < 0)
        print_byte('-');
    while (count > 0)
        print_byte((uint8_t)digits[--count]);
    print_byte('\n');
}

/* ---- decoding */

static uint32_t bits(uint32_t word, int low, int count)
{
    return word >> low & ((1u << count) - 1);
}

static uint32_t extended(int count, uint32_t number)
{
    return (uint32_t)((int32_t)(number << (32 - count)) >> (32 - count));
}

static uint32_t s_immediate(uint32_t w)
{
    return extended(12, bits(w, 25, 7) << 5 | bits(w, 7, 5));
}

static uint32_t b_immediate(uint32_t w)
{
    return extended(13, bits(w, 31, 1) << 12 | bits(w, 7, 1) << 11 | bits(w, 25, 6) << 5 | bits(w, 8, 4) << 1);
}

static uint32_t j_immediate(uint32_t w)
{
    return extended(21, bits(w, 31, 1) << 20 | bits(w, 12, 8) << 12 | bits(w, 20, 1) << 11 | bits(w, 21, 10) << 1);
}

static enum operation decode_immediate(uint32_t w)
{
    static const uint8_t row[8] = { ADDI, SLLI, SLTI, SLTIU, XORI, SRLI, ORI, ANDI };
    uint32_t funct3 = bits(w, 12, 3), funct7 = bits(w, 25, 7);

    if (funct3 == 5 && funct7 == 0x20)
        return SRAI;
    if ((funct3 == 1 || funct3 == 5) && funct7 != 0)
        return UNKNOWN;
    return row[funct3];
}

static enum operation decode_register(uint32_t w)
{
    static const uint8_t base[8] = { ADD, SLL, SLT, SLTU, XOR, SRL, OR, AND };
    static const uint8_t product[8] = { MUL, MULH, MULHSU, MULHU, DIV, DIVU, REM, REMU };
    uint32_t funct3 = bits(w, 12, 3), funct7 = bits(w, 25, 7);

    if (funct7 == 0)
        return base[funct3];
    if (funct7 == 1)
        return product[funct3];
    if (funct7 == 0x20 && funct3 == 0)
        return SUB;
    if (funct7 == 0x20 && funct3 == 5)
        return SRA;
    return UNKNOWN;
}

static enum operation decode_atomic(uint32_t w)
{
    if (bits(w, 12, 3) != 2)
        return UNKNOWN;
    switch (bits(w, 27, 5)) {
    case 0x02: return bits(w, 20, 5) == 0 ? LR : UNKNOWN;
    case 0x03: return SC;
    case 0x01: return SWAP;
    case 0x00: return AMOADD;
    case 0x04: return AMOXOR;
    case 0x0c: return AMOAND;
    case 0x08: return AMOOR;
    case 0x10: return AMOMIN;
    case 0x14: return AMOMAX;
    case 0x18: return AMOMINU;
    case 0x1c: return AMOMAXU;
    default: return UNKNOWN;
    }
}

static enum operation decode_system(uint32_t w)
{
    return w == 0x00000073 ? ECALL : w == 0x00100073 ? EBREAK : UNKNOWN;
}

static struct instruction decode(uint32_t w)
{
    static const uint8_t branches[8] = { BEQ, BNE, UNKNOWN, UNKNOWN, BLT, BGE, BLTU, BGEU };
    static const uint8_t loads[8] = { LB, LH, LW, UNKNOWN, LBU, LHU, UNKNOWN, UNKNOWN };
    static const uint8_t stores[8] = { SB, SH, SW, UNKNOWN, UNKNOWN, UNKNOWN, UNKNOWN, UNKNOWN };
    uint32_t funct3 = bits(w, 12, 3);
    struct instruction i = { UNKNOWN, (uint8_t)bits(w, 7, 5), (uint8_t)bits(w, 15, 5), (uint8_t)bits(w, 20, 5), 0 };

    if (i.rd == 0)
        i.rd = SINK;
    switch (bits(w, 0, 7)) {
    case 0x37: i.operation = LUI; i.immediate = w & 0xfffff000; break;
    case 0x17: i.operation = AUIPC; i.immediate = w & 0xfffff000; break;
    case 0x6f: i.operation = JAL; i.immediate = j_immediate(w); break;
    case 0x67: i.operation = funct3 == 0 ? JALR : UNKNOWN; i.immediate = extended(12, w >> 20); break;
    case 0x63: i.operation = branches[funct3]; i.immediate = b_immediate(w); break;
    case 0x03: i.operation = loads[funct3]; i.immediate = extended(12, w >> 20); break;
    case 0x23: i.operation = stores[funct3]; i.immediate = s_immediate(w); break;
    case 0x13:
        i.operation = decode_immediate(w);
        i.immediate = funct3 == 1 || funct3 == 5 ? i.rs2 : extended(12, w >> 20);
        break;
    case 0x33: i.operation = decode_register(w); break;
    case 0x0f: i.operation = funct3 == 0 ? FENCE : UNKNOWN; break;
    case 0x73: i.operation = decode_system(w); break;
    case 0x2f: i.operation = decode_atomic(w); break;
    }
    return i;
}

/* ---- memory */

/* the word of memory that an address lies in, or NULL */
static inline uint32_t *word_at(struct machine *m, uint32_t number, uint32_t address)
{
    if (address - SHARED_START < 4 * SHARED_WORDS)
        return &m->shared[(address - SHARED_START) >> 2];
    if (address - LOCAL_START < 4 * LOCAL_WORDS)
        return &m->locals[(size_t)number * LOCAL_STRIDE + ((address - LOCAL_START) >> 2)];
    if (address - CONTROL_START < 4 * CONTROL_WORDS)
        return &m->control[(address - CONTROL_START) >> 2];
    return NULL;
}

static void drop_reservation(struct machine *m, struct hart *h)
{
    if (h->reserved != NO_RESERVATION) {
        h->reserved = NO_RESERVATION;
        m->reservations--;
    }
}

/* clears the reservations of a word that a hart stores to: its own words are no other hart's */
static void clear_reservations(struct machine *m, struct hart *h, uint32_t word)
{
    if (word - LOCAL_START < 4 * LOCAL_WORDS) {
        if (h->reserved == word)
            drop_reservation(m, h);
        return;
    }
    for (uint32_t k = 0; k < m->hart_count && m->reservations != 0; k++)
        if (m->harts[k].reserved == word)
            drop_reservation(m, &m->harts[k]);
}

static inline void stored(struct machine *m, struct hart *h, uint32_t address)
{
    if (m->reservations != 0)
        clear_reservations(m, h, address & ~3u);
}

static bool stop(struct machine *m, enum stand stand, uint32_t number, uint32_t cause)
{
    m->stand = stand;
    m->stopped_by = number;
    m->cause = cause;
    return false;
}

static inline bool load(struct machine *m, uint32_t number, uint32_t address, uint32_t size, uint32_t *value)
{
    const uint32_t *word;

    if ((address & (size - 1)) != 0)
        return stop(m, TRAPPED, number, MISALIGNED);
    word = word_at(m, number, address);
    if (word != NULL) {
        *value = *word >> 8 * (address & 3);
        return true;
    }
    if (size == 4) {
        switch (address) {
        case CYCLE: *value = m->cycles; return true;
        case HART_ID: *value = number; return true;
        case HARTS: *value = m->hart_count; return true;
        case INPUTS: *value = 0; return true;
        }
    }
    return stop(m, TRAPPED, number, ACCESS);
}

static bool store_device(struct machine *m, struct hart *h, uint32_t number, uint32_t address, uint32_t value)
{
    switch (address) {
    case OUT_INT: print_number((int32_t)value); return true;
    case OUT_CHAR: print_byte((uint8_t)value); return true;
    case FAULT: return stop(m, FAULTED, number, value);
    case HALT:
        h->ended = true;
        m->running--;
        return true;
    default: return stop(m, TRAPPED, number, ACCESS);
    }
}

static inline bool store(struct machine *m, struct hart *h, uint32_t number, uint32_t address, uint32_t size, uint32_t value)
{
    uint32_t *word;

    if ((address & (size - 1)) != 0)
        return stop(m, TRAPPED, number, MISALIGNED);
    word = word_at(m, number, address);
    if (word == NULL)
        return size == 4 ? store_device(m, h, number, address, value) : stop(m, TRAPPED, number, ACCESS);
    memcpy((char *)word + (address & 3), &value, size);
    stored(m, h, address);
    return true;
}

/* the word of an atomic instruction, or NULL where it traps */
static inline uint32_t *atomic_word(struct machine *m, uint32_t number, uint32_t address)
{
    uint32_t *word;

    if ((address & 3) != 0) {
        stop(m, TRAPPED, number, MISALIGNED);
        return NULL;
    }
    word = word_at(m, number, address);
    if (word == NULL)
        stop(m, TRAPPED, number, ACCESS);
    return word;
}

static void load_reserved(struct machine *m, struct hart *h, uint32_t address)
{
    drop_reservation(m, h);
    h->reserved = address;
    m->reservations++;
}

/* 0 where the word is stored, and 1 where the hart held no reservation of it */
static uint32_t store_conditional(struct machine *m, struct hart *h, uint32_t address, uint32_t *word, uint32_t value)
{
    bool held = h->reserved == address;

    if (held) {
        *word = value;
        stored(m, h, address);
    }
    drop_reservation(m, h);
    return held ? 0 : 1;
}

/* ---- one step */

static uint32_t quotient(uint32_t a, uint32_t b)
{
    if (b == 0)
        return UINT32_MAX;
    if (a == 0x80000000 && b == UINT32_MAX)
        return a;
    return (uint32_t)((int32_t)a / (int32_t)b);
}

static uint32_t remainder_of(uint32_t a, uint32_t b)
{
    if (b == 0)
        return a;
    if (a == 0x80000000 && b == UINT32_MAX)
        return 0;
    return (uint32_t)((int32_t)a % (int32_t)b);
}

static inline uint32_t least(int32_t a, int32_t b) { return (uint32_t)(a < b ? a : b); }
static inline uint32_t greatest(int32_t a, int32_t b) { return (uint32_t)(a < b ? b : a); }

/* One instruction of a hart. It answers false where it ends the machine. */
static inline bool step(struct machine *m, struct hart *h, uint32_t number)
{
    const struct instruction *i;
    uint32_t pc = h->pc, a, b, imm, target, value, *x = h->x, *word;

    if ((pc >> 2) >= m->code_words)
        return stop(m, TRAPPED, number, FETCH);
    i = &m->code[pc >> 2];
    a = x[i->rs1];
    b = x[i->rs2];
    imm = i->immediate;
    switch (i->operation) {
    case LUI: x[i->rd] = imm; break;
    case AUIPC: x[i->rd] = pc + imm; break;
    case JAL: target = pc + imm; goto jump;
    case JALR: target = (a + imm) & ~1u; goto jump;
    case BEQ: if (a == b) goto branch; break;
    case BNE: if (a != b) goto branch; break;
    case BLT: if ((int32_t)a < (int32_t)b) goto branch; break;
    case BGE: if ((int32_t)a >= (int32_t)b) goto branch; break;
    case BLTU: if (a < b) goto branch; break;
    case BGEU: if (a >= b) goto branch; break;
    case LB: if (!load(m, number, a + imm, 1, &value)) return false; x[i->rd] = (uint32_t)(int8_t)value; break;
    case LH: if (!load(m, number, a + imm, 2, &value)) return false; x[i->rd] = (uint32_t)(int16_t)value; break;
    case LW: if (!load(m, number, a + imm, 4, &value)) return false; x[i->rd] = value; break;
    case LBU: if (!load(m, number, a + imm, 1, &value)) return false; x[i->rd] = (uint8_t)value; break;
    case LHU: if (!load(m, number, a + imm, 2, &value)) return false; x[i->rd] = (uint16_t)value; break;
    case SB: if (!store(m, h, number, a + imm, 1, b)) return false; break;
    case SH: if (!store(m, h, number, a + imm, 2, b)) return false; break;
    case SW: if (!store(m, h, number, a + imm, 4, b)) return false; break;
    case ADDI: x[i->rd] = a + imm; break;
    case SLTI: x[i->rd] = (int32_t)a < (int32_t)imm; break;
    case SLTIU: x[i->rd] = a < imm; break;
    case XORI: x[i->rd] = a ^ imm; break;
    case ORI: x[i->rd] = a | imm; break;
    case ANDI: x[i->rd] = a & imm; break;
    case SLLI: x[i->rd] = a << imm; break;
    case SRLI: x[i->rd] = a >> imm; break;
    case SRAI: x[i->rd] = (uint32_t)((int32_t)a >> imm); break;
    case ADD: x[i->rd] = a + b; break;
    case SUB: x[i->rd] = a - b; break;
    case SLL: x[i->rd] = a << (b & 31); break;
    case SLT: x[i->rd] = (int32_t)a < (int32_t)b; break;
    case SLTU: x[i->rd] = a < b; break;
    case XOR: x[i->rd] = a ^ b; break;
    case SRL: x[i->rd] = a >> (b & 31); break;
    case SRA: x[i->rd] = (uint32_t)((int32_t)a >> (b & 31)); break;
    case OR: x[i->rd] = a | b; break;
    case AND: x[i->rd] = a & b; break;
    case MUL: x[i->rd] = a * b; break;
    case MULH: x[i->rd] = (uint32_t)((uint64_t)((int64_t)(int32_t)a * (int32_t)b) >> 32); break;
    case MULHSU: x[i->rd] = (uint32_t)((uint64_t)((int64_t)(int32_t)a * (int64_t)b) >> 32); break;
    case MULHU: x[i->rd] = (uint32_t)((uint64_t)a * b >> 32); break;
    case DIV: x[i->rd] = quotient(a, b); break;
    case DIVU: x[i->rd] = b == 0 ? UINT32_MAX : a / b; break;
    case REM: x[i->rd] = remainder_of(a, b); break;
    case REMU: x[i->rd] = b == 0 ? a : a % b; break;
    case FENCE: break;
    case ECALL: return stop(m, TRAPPED, number, ECALL_TRAP);
    case EBREAK: return stop(m, TRAPPED, number, EBREAK_TRAP);
    case UNKNOWN: return stop(m, TRAPPED, number, UNKNOWN_WORD);
    default:
        word = atomic_word(m, number, a);
        if (word == NULL)
            return false;
        value = *word;
        switch (i->operation) {
        case LR: load_reserved(m, h, a); break;
        case SC: value = store_conditional(m, h, a, word, b); break;
        case SWAP: *word = b; stored(m, h, a); break;
        case AMOADD: *word = value + b; stored(m, h, a); break;
        case AMOXOR: *word = value ^ b; stored(m, h, a); break;
        case AMOAND: *word = value & b; stored(m, h, a); break;
        case AMOOR: *word = value | b; stored(m, h, a); break;
        case AMOMIN: *word = least((int32_t)value, (int32_t)b); stored(m, h, a); break;
        case AMOMAX: *word = greatest((int32_t)value, (int32_t)b); stored(m, h, a); break;
        case AMOMINU: *word = value < b ? value : b; stored(m, h, a); break;
        case AMOMAXU: *word = value < b ? b : value; stored(m, h, a); break;
        }
        x[i->rd] = value;
    }
    h->pc = pc + 4;
    return true;
branch:
    if (((pc + imm) & 3) != 0)
        return stop(m, TRAPPED, number, MISALIGNED);
    h->pc = pc + imm;
    return true;
jump:
    if ((target & 3) != 0)
        return stop(m, TRAPPED, number, MISALIGNED);
    x[i->rd] = pc + 4;
    h->pc = target;
    return true;
}

static void run(struct machine *m, uint32_t bound)
{
    while (m->stand == RUNNING && m->cycles < bound) {
        for (uint32_t k = 0; k < m->hart_count; k++) {
            if (m->harts[k].ended)
                continue;
            count_operations(&m->harts[k]);
            if (!step(m, &m->harts[k], k))
                break;
        }
        m->cycles++;
        if (m->stand == RUNNING && m->running == 0)
            m->stand = FINISHED;
    }
}

/* ---- the image */

static void refuse(const char *why)
{
    fprintf(stderr, "machine: %s\n", why);
    exit(2);
}

static void *zeros(size_t count, size_t size)
{
    void *memory = calloc(count, size);

    if (memory == NULL)
        exit(5);
    return memory;
}

/* Six words: the bytes FK95, the version, and the numbers of code words, global words, sites and
   commits. Then these, a site having three words and a commit two. */
static void read_image(struct machine *m, const char *path)
{
    FILE *file = fopen(path, "rb");
    uint32_t header[HEADER_WORDS], *words;
    size_t rest;

    if (file == NULL || fread(header, 4, HEADER_WORDS, file) != HEADER_WORDS)
        refuse("the image can't be read");
    if (memcmp(header, "FK95", 4) != 0 || header[1] != 1)
        refuse("this is no image of version 1");
    if (header[2] == 0 || header[2] > MAX_CODE || header[3] > MAX_GLOBALS || header[4] > MAX_SITES || header[5] > header[2])
        refuse("the image has a bad header");
    rest = header[2] + header[3] + 3 * (size_t)header[4] + 2 * (size_t)header[5];
    words = zeros(rest + 1, 4);
    if (fread(words, 4, rest, file) != rest || fgetc(file) != EOF)
        refuse("the image has a wrong length");
    fclose(file);
    m->code_words = header[2];
    m->code = zeros(m->code_words, sizeof *m->code);
    for (uint32_t k = 0; k < m->code_words; k++)
        m->code[k] = decode(words[k]);
    m->shared = zeros(SHARED_WORDS, 4);
    memcpy(m->shared, words + header[2], 4 * (size_t)header[3]);
    read_commits(words + rest - 2 * (size_t)header[5], header[5]);
    free(words);
}

static uint32_t number_in(const char *text, uint64_t low, uint64_t high)
{
    char *end;
    uint64_t number = strtoull(text, &end, 10);

    if (*text < '0' || *text > '9' || *end != '\0' || number < low || number > high)
        refuse("usage: machine IMAGE HARTS CYCLES");
    return (uint32_t)number;
}

static void report(const struct machine *m)
{
    static const char *const traps[] = { "", "Fetch", "Unknown", "Misaligned", "Access", "Ecall", "Ebreak" };

    switch (m->stand) {
    case RUNNING: fprintf(stderr, "stopped"); break;
    case FINISHED: fprintf(stderr, "finished"); break;
    case FAULTED: fprintf(stderr, "fault at site %u by processor %u", m->cause, m->stopped_by); break;
    case TRAPPED:
        fprintf(stderr, "trap %s at 0x%08x by hart %u", traps[m->cause], m->harts[m->stopped_by].pc, m->stopped_by);
        break;
    }
    fprintf(stderr, " after %u cycles\n", m->cycles);
#ifdef COUNT_OPERATIONS
    fprintf(stderr, "%llu operations\n", (unsigned long long)operations);
#endif
}

int main(int argc, char **argv)
{
    static const int statuses[] = { [RUNNING] = 7, [FINISHED] = 0, [FAULTED] = 6, [TRAPPED] = 8 };
    struct machine m = { .stand = RUNNING };
    uint32_t bound;

    if (argc != 4)
        refuse("usage: machine IMAGE HARTS CYCLES");
    m.hart_count = m.running = number_in(argv[2], 1, MAX_HARTS);
    bound = number_in(argv[3], 0, UINT32_MAX);
    read_image(&m, argv[1]);
    m.control = zeros(CONTROL_WORDS, 4);
    m.locals = zeros((size_t)LOCAL_STRIDE * m.hart_count, 4);
    m.harts = zeros(m.hart_count, sizeof *m.harts);
    for (uint32_t k = 0; k < m.hart_count; k++)
        m.harts[k].reserved = NO_RESERVATION;
    run(&m, bound);
    flush_output();
    report(&m);
    return statuses[m.stand];
}
