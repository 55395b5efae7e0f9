/* plain BASE SIZE ORDERS [GROUP ..] < LISTING: obeys so many orders of a listing that `kdf9 asm` wrote, and writes the section of the program as `kdf9 run` does.
   The program's store has this size and begins at this word of a common one, of which these groups are locked out. The orders are those of the loops in
   bench/jobs.py. Another order ends it with 1, and so does one that fails or is held up. After the listing may stand what a job says of its readers and printers. A
   transfer goes on until it holds the program up, or until the end.

   It decodes each order from the packed store and keeps every check of a shared machine: the size of the store, the groups that are locked out, the depth of the
   nest and of the links, and whether a number fits. The place of the next order is kept as a word and a shift, so nothing is divided by six. */
#include <inttypes.h>
#include <stdint.h>
#include <stdio.h>
#include <stdlib.h>
#include <string.h>

typedef __int128 wide;
typedef unsigned __int128 bits128;

enum { STORE = 32768, PLACES = 8192, GROUP = 32, DEPTH = 16, FIRST_SHIFT = 40, DEVICES = 16, MOST_WORDS = 4096, LETTERS = 8, COLUMNS = 160, CLAIM = 5 };
static const uint64_t MASK = (UINT64_C(1) << 48) - 1;
static const int64_t LIMIT = INT64_C(1) << 47;

static uint64_t store[STORE + 1];
static uint8_t locked_out[STORE / GROUP];
static uint64_t nest[DEPTH];
static uint16_t links[DEPTH];
static struct { uint16_t c, i, m; } q[16];

/* The characters of the machine by their codes. */
static const char CHARACTERS[] = " \"~^_?%':=()$*,/0123456789`;+-.!@ABCDEFGHIJKLMNOPQRSTUVWXYZ[]|<>";
static const char END_MESSAGE = '|', NEW_LINE = '~';
static uint8_t codes[256];

/* The kinds of devices, by what a program asks for. */
enum device_kind { NONE, READER = 2, PRINTER = 3 };

/* A device: its position, the tape of a reader or the blocks of a printer with a newline after each, and the words of its transfer, while it is busy. */
struct device { enum device_kind kind; int is_claimed, is_busy, flag; uint32_t first, last; size_t place, length, room; char *text; };
static struct device devices[DEVICES];

/* The orders by their first syllables. */
enum kind { OTHER, DUMMY, ERASE, DUP, NOT, NEG, ADD, SUBTRACT, XD, CONT, OUT, TO_Q, TO_C, SHA, SHC, SHLD, J_C_NZS, READ, PRINT, JUMP, JS, EXIT, SET, FETCH, TO_STORE };
static const uint8_t KINDS[256] = {
    [0x01] = DUMMY, [0x02] = ERASE, [0x03] = DUP, [0x0c] = NOT, [0x0f] = NEG, [0x11] = ADD, [0x12] = SUBTRACT, [0x14] = XD, [0x15] = CONT, [0x21] = OUT,
    [0x54] = TO_Q, [0x55] = TO_C, [0x6a] = SHA, [0x6c] = SHC, [0x6e] = SHLD, [0x6f] = J_C_NZS, [0x71] = READ, [0x75] = PRINT, [0xa0] = JUMP, [0xa1] = JS,
    [0xb2] = EXIT, [0xe0] = SET, [0xc0 ... 0xc7] = FETCH, [0xd0 ... 0xd7] = TO_STORE,
};

/* The program's store: where it begins in the common one, and its size. */
struct window { uint32_t base, size; };

/* What is neither in the store nor on a stack: the place of the next order, how many words the stacks have, and V. */
struct registers { uint32_t word; int32_t shift; uint32_t depth, linked; int overflow; };

static inline int64_t value(uint64_t word) { return (int64_t)(word << 16) >> 16; }

static inline int fits(int64_t number) { return -LIMIT <= number && number < LIMIT; }

/* The double value of N1 and N2; D0 of N2 doesn't count. */
static inline wide double_value(uint64_t n1, uint64_t n2) { return (wide)value(n1) * LIMIT + (wide)(n2 & (MASK >> 1)); }

static inline uint64_t rotated(uint64_t word, int by) {
    by %= 48;
    by += by < 0 ? 48 : 0;
    return (word << by | word >> (48 - by)) & MASK;
}

/* 96 bits without a sign, shifted to the left, or to the right by a negative number. */
static inline bits128 shifted(bits128 both, int by) {
    if (by <= -96 || by >= 96) return 0;
    return by < 0 ? both >> -by : both << by;
}

/* The value times two to this number, or divided and rounded. */
static inline uint64_t scaled(uint64_t word, int by, int *overflow) {
    if (by < -64) by = -64;
    if (by > 64) by = 64;
    wide result = by < 0 ? ((wide)value(word) + ((wide)1 << (-by - 1))) >> -by : (wide)((bits128)(wide)value(word) << by);
    *overflow |= result < -(wide)LIMIT || result >= (wide)LIMIT;
    return (uint64_t)result & MASK;
}

/* The Q-store of an order of two syllables. */
static inline uint32_t q_of(uint32_t order) { return order >> 12 & 0xf; }

/* How far a shift goes to the left: a number of seven bits in the order, or a counter. */
static inline int distance(uint32_t order) { return order & 0x100 ? (int8_t)(order >> 8) >> 1 : (int16_t)q[q_of(order)].c; }

/* Whether a word of the program is in its store and in a group that isn't locked out. Says where it is in the common store. */
static inline int can_have(struct window own, uint32_t address, uint32_t *at) {
    *at = own.base + address;
    return address < own.size && !locked_out[*at / GROUP];
}

/* Goes on by so many syllables, six at most. */
static inline void go_on(struct registers *r, int32_t syllables) {
    r->shift -= 8 * syllables;
    if (r->shift < 0) {
        r->shift += 48;
        r->word = (r->word + 1) % PLACES;
    }
}

/* Goes to a place as a jump or a link has it, if its syllable is one of the six. */
static inline int go_to(struct registers *r, uint32_t place) {
    int32_t shift = FIRST_SHIFT - (int32_t)(8 * (place / PLACES));
    if (shift < 0) return 0;
    r->word = place % PLACES;
    r->shift = shift;
    return 1;
}

static inline uint16_t place_of(const struct registers *r) { return (uint16_t)((FIRST_SHIFT - r->shift) / 8 * PLACES + r->word); }

/* Claims the device of a kind with the lowest number, and puts that in place of the kind. */
static int claims(uint64_t *kind) {
    for (uint64_t k = 0; k < DEVICES; k++)
        if (devices[k].kind && devices[k].kind == *kind && !devices[k].is_claimed) {
            devices[k].is_claimed = 1;
            *kind = k;
            return 1;
        }
    return 0;
}

/* Locks out the groups of a transfer, or no longer does. */
static void lock(const struct device *it, int is_out) {
    memset(&locked_out[it->first / GROUP], is_out, it->last / GROUP - it->first / GROUP + 1);
}

/* Begins a transfer, if its device is claimed and of this kind, its area is one of the program, and neither is out. */
static int begins(struct window own, uint32_t k, enum device_kind kind) {
    if (q[k].c >= DEVICES || q[k].i > q[k].m || q[k].m >= own.size || q[k].m - q[k].i >= MOST_WORDS) return 0;
    struct device *it = &devices[q[k].c];
    if (it->kind != kind || !it->is_claimed || it->is_busy) return 0;
    uint32_t first = own.base + q[k].i, last = own.base + q[k].m;
    if (memchr(&locked_out[first / GROUP], 1, last / GROUP - first / GROUP + 1)) return 0;
    it->is_busy = 1;
    it->first = first;
    it->last = last;
    lock(it, 1);
    return 1;
}

/* The word of so many characters, eight at most, filled up with spaces. */
static uint64_t word_of(const char *text, size_t length) {
    uint64_t word = 0;
    for (size_t k = 0; k < LETTERS; k++) word = word << 6 | (k < length ? codes[(uint8_t)text[k]] : 0);
    return word;
}

/* Reads up to the first End Message, or as far as the area and the tape go. */
static void read_tape(struct device *it) {
    size_t most = LETTERS * (size_t)(it->last - it->first + 1), left = it->length - it->place, length = left < most ? left : most;
    const char *text = it->text + it->place, *end = length ? memchr(text, END_MESSAGE, length) : NULL;
    if (end) length = (size_t)(end - text) + 1;
    it->flag = !end && length < most;
    it->place += length;
    for (uint32_t at = it->first; length; at++) {
        size_t taken = length < LETTERS ? length : LETTERS;
        store[at] = word_of(text, taken);
        text += taken;
        length -= taken;
    }
}

/* Makes room for so many characters more. */
static void make_room(struct device *it, size_t more) {
    if (it->room - it->length >= more) return;
    it->room = 2 * it->room + more;
    it->text = realloc(it->text, it->room);
    if (!it->text) exit((fprintf(stderr, "plain: no memory\n"), 2));
}

/* Prints the words as a block: of each line, which `~` ends, the first 160 characters, and every `~`. */
static void print_block(struct device *it) {
    make_room(it, LETTERS * (size_t)(it->last - it->first + 1) + 1);
    char *to = it->text + it->length;
    int column = 0;
    for (uint32_t at = it->first; at <= it->last; at++)
        for (int shift = 42; shift >= 0; shift -= 6) {
            char letter = CHARACTERS[store[at] >> shift & 077];
            column = letter == NEW_LINE ? 0 : column + 1;
            if (column <= COLUMNS) *to++ = letter;
        }
    *to++ = '\n';
    it->length = (size_t)(to - it->text);
    it->place++;
    it->flag = 0;
}

/* Ends all transfers. Returns how many there were. */
static int end_transfers(void) {
    int ended = 0;
    for (struct device *it = devices; it < devices + DEVICES; it++)
        if (it->is_busy) {
            if (it->kind == READER) read_tape(it);
            else print_block(it);
            lock(it, 0);
            it->is_busy = 0;
            ended++;
        }
    return ended;
}

/* What each order begins with: it has so many syllables, whose last may be in the next word; the second names a Q-store and has no other bit, or, for a shift, a
   number in the place of both; it needs words on the nest, or room for them. */
#define OWNS(syllables) if (r.shift < 8 * ((syllables) - 1) && !can_have(own, (r.word + 1) % PLACES, &at)) goto stopped
#define NAMES_Q if (order & 0xf00) goto stopped
#define NAMES_SHIFT if ((order & 0x100) == 0 && (order & 0xf00)) goto stopped
#define NEEDS(words) if (r.depth < (words)) goto stopped
#define GIVES(words) if (r.depth + (words) > DEPTH) goto stopped
#define N1 nest[r.depth - 1]
#define N2 nest[r.depth - 2]

/* Obeys orders until one fails or is held up, which changes nothing. Returns how many it obeyed. */
static uint64_t obey(struct registers *stands, struct window own, uint64_t orders) {
    struct registers r = *stands;
    uint64_t left = orders;
    for (; left; left--) {
        uint32_t at, address;
        int64_t number;
        wide both;
        bits128 bits;
        if (!can_have(own, r.word, &at)) goto stopped;
        /* Six syllables of this word and two of the next one. */
        uint32_t order = (uint32_t)((store[at] << 16 | store[at + 1] >> 32) >> r.shift) & 0xffffff;
        switch (KINDS[order >> 16]) {
        case DUMMY:
            go_on(&r, 1);
            continue;
        case ERASE:
            NEEDS(1);
            r.depth--;
            go_on(&r, 1);
            continue;
        case DUP:
            NEEDS(1);
            GIVES(1);
            nest[r.depth] = N1;
            r.depth++;
            go_on(&r, 1);
            continue;
        case NOT:
            NEEDS(1);
            N1 ^= MASK;
            go_on(&r, 1);
            continue;
        case NEG:
            NEEDS(1);
            number = -value(N1);
            r.overflow |= !fits(number);
            N1 = (uint64_t)number & MASK;
            go_on(&r, 1);
            continue;
        case ADD:
            NEEDS(2);
            number = value(N2) + value(N1);
            r.overflow |= !fits(number);
            r.depth--;
            N1 = (uint64_t)number & MASK;
            go_on(&r, 1);
            continue;
        case SUBTRACT:
            NEEDS(2);
            number = value(N2) - value(N1);
            r.overflow |= !fits(number);
            r.depth--;
            N1 = (uint64_t)number & MASK;
            go_on(&r, 1);
            continue;
        case XD:
            NEEDS(2);
            both = (wide)value(N1) * value(N2);
            r.overflow |= both >= (wide)LIMIT * LIMIT;
            N2 = (uint64_t)both & (MASK >> 1);
            N1 = (uint64_t)(both >> 47) & MASK;
            go_on(&r, 1);
            continue;
        case CONT:
            NEEDS(2);
            both = double_value(N1, N2);
            r.overflow |= both < -(wide)LIMIT || both >= (wide)LIMIT;
            r.depth--;
            N1 = (uint64_t)both & MASK;
            go_on(&r, 1);
            continue;
        case OUT: /* 5 alone */
            NEEDS(2);
            if (N1 != CLAIM || !claims(&N2)) goto stopped;
            r.depth--;
            go_on(&r, 1);
            continue;
        case TO_Q:
            OWNS(2);
            NAMES_Q;
            NEEDS(1);
            r.depth--;
            if (q_of(order)) {
                q[q_of(order)].c = (uint16_t)(nest[r.depth] >> 32);
                q[q_of(order)].i = (uint16_t)(nest[r.depth] >> 16);
                q[q_of(order)].m = (uint16_t)nest[r.depth];
            }
            go_on(&r, 2);
            continue;
        case TO_C:
            OWNS(2);
            NAMES_Q;
            NEEDS(1);
            r.depth--;
            if (q_of(order)) q[q_of(order)].c = (uint16_t)nest[r.depth];
            go_on(&r, 2);
            continue;
        case SHA:
            OWNS(2);
            NAMES_SHIFT;
            NEEDS(1);
            N1 = scaled(N1, distance(order), &r.overflow);
            go_on(&r, 2);
            continue;
        case SHC:
            OWNS(2);
            NAMES_SHIFT;
            NEEDS(1);
            N1 = rotated(N1, distance(order));
            go_on(&r, 2);
            continue;
        case SHLD:
            OWNS(2);
            NAMES_SHIFT;
            NEEDS(2);
            bits = shifted((bits128)N1 << 48 | N2, distance(order));
            N1 = (uint64_t)(bits >> 48) & MASK;
            N2 = (uint64_t)bits & MASK;
            go_on(&r, 2);
            continue;
        case J_C_NZS:
            OWNS(2);
            NAMES_Q;
            if (q[q_of(order)].c) {
                r.word = (r.word - 1) % PLACES;
                r.shift = FIRST_SHIFT;
            } else {
                go_on(&r, 2);
            }
            continue;
        case READ:
            OWNS(2);
            NAMES_Q;
            if (!begins(own, q_of(order), READER)) goto stopped;
            go_on(&r, 2);
            continue;
        case PRINT:
            OWNS(2);
            NAMES_Q;
            if (!begins(own, q_of(order), PRINTER)) goto stopped;
            go_on(&r, 2);
            continue;
        case JUMP:
            OWNS(3);
            if (!go_to(&r, order & 0xffff)) goto stopped;
            continue;
        case JS:
            OWNS(3);
            if (r.linked == DEPTH) goto stopped;
            links[r.linked] = place_of(&r);
            if (!go_to(&r, order & 0xffff)) goto stopped;
            r.linked++;
            continue;
        case EXIT: /* three syllables further for each n */
            OWNS(3);
            if (order >> 8 & 0xff || r.linked < 1 || !go_to(&r, links[r.linked - 1])) goto stopped;
            r.linked--;
            r.word = (r.word + (order & 0xff) / 2) % PLACES;
            go_on(&r, order % 2 ? 3 : 0);
            continue;
        case SET:
            OWNS(3);
            GIVES(1);
            nest[r.depth++] = (uint64_t)(int16_t)order & MASK;
            go_on(&r, 3);
            continue;
        case FETCH:
            OWNS(3);
            GIVES(1);
            address = ((order & 0x7fff) + q[order >> 15 & 0xf].m) & 0xffff;
            if (!can_have(own, address, &at)) goto stopped;
            nest[r.depth++] = store[at];
            go_on(&r, 3);
            continue;
        case TO_STORE:
            OWNS(3);
            NEEDS(1);
            address = ((order & 0x7fff) + q[order >> 15 & 0xf].m) & 0xffff;
            if (!can_have(own, address, &at)) goto stopped;
            store[at] = nest[--r.depth];
            go_on(&r, 3);
            continue;
        case OTHER:
            goto stopped;
        default: /* The table has nothing else. */
            __builtin_unreachable();
        }
    }
stopped:
    *stands = r;
    return orders - left;
}

/* Obeys orders and ends the transfers that hold them up, and at last all of them. Returns how many orders it obeyed. */
static uint64_t obey_all(struct registers *stands, struct window own, uint64_t orders) {
    uint64_t obeyed = 0;
    do obeyed += obey(stands, own, orders - obeyed);
    while (end_transfers() && obeyed < orders);
    return obeyed;
}

/* Writes a device, and the blocks of a printer. */
static void tell_device(const struct device *it) {
    const char *kind = it->kind == READER ? "TR" : "LP", *held = it->is_claimed ? "HELD" : "FREE";
    printf("DEVICE %d %s %s PLACE %zu FLAG %d\n", (int)(it - devices), kind, held, it->place, it->flag);
    if (it->kind == READER) return;
    for (const char *block = it->text, *end; block && block < it->text + it->length; block = end) {
        end = strchr(block, '\n') + 1;
        fputs("BLOCK ", stdout);
        fwrite(block, 1, (size_t)(end - block), stdout);
    }
}

/* Writes the section. */
static void tell(const struct registers *r, struct window own, uint64_t orders) {
    printf("SLOT 0\nSTATE LIVE\nORDERS %" PRIu64 "\nAT %" PRIu32 " %" PRId32 "\n", orders, r->word, (FIRST_SHIFT - r->shift) / 8);
    printf("FLAGS %d 0\nNEST %" PRIu32, r->overflow, r->depth);
    for (uint32_t at = r->depth; at-- > 0;) printf(" %016" PRIo64, nest[at]);
    printf("\nLINKS %" PRIu32, r->linked);
    for (uint32_t at = r->linked; at-- > 0;) printf(" %d/%d", links[at] % PLACES, links[at] / PLACES);
    printf("\n");
    for (int k = 1; k < 16; k++)
        if (q[k].c || q[k].i || q[k].m) printf("Q %d %d %d %d\n", k, q[k].c, q[k].i, q[k].m);
    for (uint32_t address = 0; address < own.size; address++) printf("WORD %" PRIu32 " %016" PRIo64 "\n", address, store[own.base + address]);
    for (const struct device *it = devices; it < devices + DEVICES; it++)
        if (it->kind) tell_device(it);
    printf("ENDREPORT\n");
}

/* Takes the words of the listing, and the devices with their tapes. */
static void take_lines(struct window own) {
    char *line = NULL;
    size_t room = 0;
    struct device *it = NULL;
    for (ssize_t length; (length = getline(&line, &room, stdin)) > 0;) {
        uint32_t address;
        uint64_t word;
        char kind;
        if (sscanf(line, "WORD %" SCNu32 " %" SCNo64, &address, &word) == 2 && address < own.size) store[own.base + address] = word;
        if (sscanf(line, "DEVICE %" SCNu32 " %c", &address, &kind) == 2 && address < DEVICES) {
            it = &devices[address];
            it->kind = kind == 'T' ? READER : PRINTER;
        }
        if (line[0] == '+' && it) {
            size_t more = (size_t)length - 2;
            make_room(it, more);
            memcpy(it->text + it->length, line + 1, more);
            it->length += more;
        }
    }
    free(line);
}

int main(int count, char **words) {
    if (count < 4) return fprintf(stderr, "usage: plain BASE SIZE ORDERS [GROUP ..] < LISTING\n"), 2;
    struct window own = {(uint32_t)strtoul(words[1], NULL, 10), (uint32_t)strtoul(words[2], NULL, 10)};
    uint64_t orders = strtoull(words[3], NULL, 10);
    for (int at = 4; at < count; at++) locked_out[strtoul(words[at], NULL, 10) % (STORE / GROUP)] = 1;
    if (own.size > PLACES || own.base > STORE - PLACES) return fprintf(stderr, "plain: the store isn't so large\n"), 2;
    for (uint8_t code = 0; code < 64; code++) codes[(uint8_t)CHARACTERS[code]] = code;
    take_lines(own);
    struct registers stands = {.shift = FIRST_SHIFT};
    uint64_t obeyed = obey_all(&stands, own, orders);
    if (obeyed < orders) return fprintf(stderr, "plain: order %" PRIu64 " fails, is held up, or isn't one of its own\n", obeyed + 1), 1;
    tell(&stands, own, orders);
    return 0;
}
