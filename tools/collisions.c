/* Searches inputs that collide under a hasher whose seed is known, and prints them in hex. tests/colliding.py calls it, and makes names
   and keys of what it finds. Built by: cc -O3 -march=native -pthread -o collisions tools/collisions.c

   collisions words TOP            Two words, with TOP as the highest byte of both, that folded_multiply takes to one number. Each xored
                                   with a state, they are two words that WordHasher, or hash_of, takes from there to one state.
   collisions strings A B          Two strings of eight bytes, as numbers with the first byte lowest: FoldHasher, fed byte by byte, comes
                                   from the state A with the first, and from B with the second, to one state. A and B may be the same.
   collisions word-ends STATE N    N ends of keys that WordHasher takes from a state to hashes of which a map sees the same 32 bits. An end
                                   is eight bytes, of which the first four are zero; the others are printed as a number, the first highest.
   collisions string-ends STATE N  The same of FoldHasher, where three of the bytes are zero.
   collisions few-ends STATE N     The same, but only of the 20 bits by which a map of 18,433 to 36,864 looks: the 12 lowest, and the 8
                                   highest, of the 32.

   The first two walk: what is hashed of a number is the next number. Walks from many starts, by two threads, note those numbers whose
   lowest bits are zero; two that come to the same one have met before, and where they met is a collision. That takes about 2^32.3 steps.
   The others try ends, and count those of each hash of which some bits are zero, until there are N of one. For 160 and 32 bits that takes
   about 2^38 ends, fewer than of one hash that is chosen before, of which each end takes 2^32. */
#include <inttypes.h>
#include <pthread.h>
#include <stdbool.h>
#include <stdint.h>
#include <stdio.h>
#include <stdlib.h>
#include <string.h>

enum { THREADS = 2, LANES = 8 };

static const uint64_t multiplier = 0x9e3779b97f4a7c15;
/* what FoldHasher multiplies a single byte by */
static const uint64_t byte_multiplier = 0x9e3779b97f4a7c15 ^ 2;

static inline uint64_t folded_multiply(uint64_t a, uint64_t b) {
    unsigned __int128 product = (unsigned __int128)a * b;
    return (uint64_t)product ^ (uint64_t)(product >> 64);
}

static inline uint64_t rotate_left(uint64_t word, int by) { return word << by | word >> (64 - by); }

static inline uint64_t mixed(uint64_t state, uint64_t word) { return folded_multiply(state ^ word, multiplier) ^ rotate_left(state, 23); }

/* the 32 bits of a hash that a map sees */
static inline uint32_t seen(uint64_t hash) { return (uint32_t)(hash ^ hash >> 32); }

/* ---- walks */

enum kind { WORDS, STRINGS };

/* the highest byte of all words; the states of the strings whose first bit is 0 and 1 */
static uint64_t top, states[2];
/* a byte as FoldHasher reads it */
static uint64_t spread[256];

static const uint64_t word_mask = 0x00ffffffffffffff;
/* one point in 2^16 is noted */
static const uint64_t noted_mask = 0xffff;

/* what is hashed of numbers, some at a time so that their products overlap */
static inline __attribute__((always_inline)) void hash_lanes(enum kind kind, const uint64_t *numbers, uint64_t *hashes, int lanes) {
    if (kind == WORDS) {
        for (int lane = 0; lane < lanes; lane++) hashes[lane] = folded_multiply(top | (numbers[lane] & word_mask), multiplier);
        return;
    }
    for (int lane = 0; lane < lanes; lane++) hashes[lane] = states[numbers[lane] & 1];
    for (int place = 0; place < 64; place += 8)
        for (int lane = 0; lane < lanes; lane++)
            hashes[lane] = folded_multiply(hashes[lane] ^ spread[numbers[lane] >> place & 255], byte_multiplier);
}

static uint64_t hash_one(enum kind kind, uint64_t number) {
    uint64_t hash;
    hash_lanes(kind, &number, &hash, 1);
    return hash;
}

/* words have 56 bits that are free */
static uint64_t free_bits(enum kind kind, uint64_t hash) { return kind == WORDS ? hash & word_mask : hash; }

/* a walk that came to a point that is noted */
struct walk {
    uint64_t start, end, steps;
};

enum { PLACES = 1 << 22 };
static struct walk walks[PLACES];
static pthread_mutex_t lock = PTHREAD_MUTEX_INITIALIZER;
static volatile bool is_found;
static uint64_t next_start;

static uint64_t new_start(enum kind kind) {
    uint64_t mixture = ++next_start * 0xd1342543de82ef95;
    mixture = (mixture ^ mixture >> 31) * 0xda942042e4dd58b5;
    return free_bits(kind, mixture ^ mixture >> 29);
}

/* Where two walks to one point meet. Whether the hashes there are the same in all bits, of two numbers that serve. */
static bool is_collision(enum kind kind, struct walk one, struct walk other, uint64_t *first, uint64_t *second) {
    uint64_t a = one.start, b = other.start;
    for (; one.steps > other.steps; one.steps--) a = free_bits(kind, hash_one(kind, a));
    for (; other.steps > one.steps; other.steps--) b = free_bits(kind, hash_one(kind, b));
    while (a != b) {
        uint64_t hash_a = hash_one(kind, a), hash_b = hash_one(kind, b);
        if (free_bits(kind, hash_a) == free_bits(kind, hash_b)) {
            if (hash_a != hash_b || (states[0] != states[1] && (a & 1) == (b & 1))) return false;
            *first = (a & 1) < (b & 1) ? a : b;
            *second = *first == a ? b : a;
            return true;
        }
        a = free_bits(kind, hash_a);
        b = free_bits(kind, hash_b);
    }
    return false;
}

/* A walk has come to a point that is noted. */
static void note(enum kind kind, struct walk walk) {
    uint64_t place = (walk.end >> 16) % PLACES, first, second;
    while (walks[place].steps && walks[place].end != walk.end) place = (place + 1) % PLACES;
    struct walk before = walks[place];
    walks[place] = walk;
    if (is_found || !before.steps || !is_collision(kind, before, walk, &first, &second)) return;
    is_found = true;
    if (kind == WORDS) first |= top, second |= top;
    printf("%016" PRIx64 " %016" PRIx64 "\n", first, second);
}

static inline __attribute__((always_inline)) void *walk_all(enum kind kind) {
    uint64_t numbers[LANES], hashes[LANES], starts[LANES], begun[LANES], step = 0;
    for (int lane = 0; lane < LANES; lane++) begun[lane] = UINT64_MAX;
    while (!is_found) {
        pthread_mutex_lock(&lock);
        for (int lane = 0; lane < LANES; lane++) {
            bool is_noted = begun[lane] != UINT64_MAX && (numbers[lane] & noted_mask) == 0;
            /* one that is too long goes in a circle */
            if (!is_noted && begun[lane] != UINT64_MAX && step - begun[lane] < 40 * (noted_mask + 1)) continue;
            if (is_noted) note(kind, (struct walk){starts[lane], numbers[lane], step - begun[lane]});
            numbers[lane] = starts[lane] = new_start(kind);
            begun[lane] = step;
        }
        pthread_mutex_unlock(&lock);
        for (bool is_any = false; !is_any;) {
            hash_lanes(kind, numbers, hashes, LANES);
            step++;
            for (int lane = 0; lane < LANES; lane++) {
                numbers[lane] = kind == WORDS ? hashes[lane] & word_mask : hashes[lane];
                is_any |= (numbers[lane] & noted_mask) == 0;
            }
            is_any |= step % (1 << 20) == 0;
        }
    }
    return NULL;
}

static void *walk_words(void *unused) { return (void)unused, walk_all(WORDS); }

static void *walk_strings(void *unused) { return (void)unused, walk_all(STRINGS); }

/* ---- ends */

enum { COUNTED = 1 << 20, MOST_NOTED = 1 << 27 };

static uint64_t end_state, next_end;
static unsigned ends_wanted;
/* the bits that have to be the same, and those of them that have to be zero */
static uint32_t same_bits, zero_bits;
/* how many ends there are of a hash, and each as its hash before 44 bits of its number */
static unsigned ends_of[COUNTED];
static uint64_t noted[MOST_NOTED], noted_count;
static unsigned winner;

static void note_end(uint32_t hash, uint64_t end) {
    uint64_t place = __atomic_fetch_add(&noted_count, 1, __ATOMIC_RELAXED);
    if (place >= MOST_NOTED) {
        is_found = true;
        return;
    }
    noted[place] = (uint64_t)hash << 44 | end;
    if (__atomic_add_fetch(&ends_of[hash], 1, __ATOMIC_RELAXED) == ends_wanted) {
        winner = hash;
        is_found = true;
    }
}

/* numbers that no other thread takes */
static uint64_t some_numbers(void) { return __atomic_fetch_add(&next_end, 1 << 12, __ATOMIC_RELAXED); }

static void *end_words(void *unused) {
    while (!is_found) {
        uint64_t first = some_numbers();
        for (uint64_t number = first; number < first + (1 << 12); number++) {
            uint64_t state = mixed(end_state, number | (uint64_t)1 << 56), rotated = rotate_left(state, 23);
            for (uint64_t last = 0; last < 256; last++) {
                uint32_t hash = seen(folded_multiply(state ^ (256 + last), multiplier) ^ rotated);
                if ((hash & zero_bits) == 0) note_end(hash & same_bits, number << 8 | last);
            }
        }
    }
    return (void)unused, NULL;
}

static void *end_strings(void *unused) {
    while (!is_found) {
        uint64_t first = some_numbers();
        for (uint64_t number = first; number < first + (1 << 12); number++) {
            uint64_t state = end_state;
            for (int place = 48; place >= 0; place -= 8) state = folded_multiply(state ^ spread[number >> place & 255], byte_multiplier);
            for (uint64_t last = 0; last < 256; last++) {
                uint32_t hash = seen(folded_multiply(state ^ spread[last], byte_multiplier));
                if ((hash & zero_bits) == 0) note_end(hash & same_bits, number << 8 | last);
            }
        }
    }
    return (void)unused, NULL;
}

static void print_ends(void) {
    unsigned printed = 0;
    for (uint64_t place = 0; place < noted_count && place < MOST_NOTED && printed < ends_wanted; place++) {
        if (ends_of[winner] < ends_wanted || noted[place] >> 44 != winner) continue;
        printf("%" PRIx64 "\n", noted[place] & (((uint64_t)1 << 44) - 1));
        printed++;
    }
}

/* ---- the command line */

static void run(void *(*work)(void *)) {
    pthread_t threads[THREADS];
    for (int number = 0; number < THREADS; number++) pthread_create(&threads[number], NULL, work, NULL);
    for (int number = 0; number < THREADS; number++) pthread_join(threads[number], NULL);
}

int main(int count, char **words) {
    const char *what = count == 3 || count == 4 ? words[1] : "";
    uint64_t first = count > 2 ? strtoull(words[2], NULL, 16) : 0;
    for (uint64_t byte = 0; byte < 256; byte++) spread[byte] = byte | byte << 8 | byte << 16;
    if (!strcmp(what, "words") && count == 3) {
        top = first << 56;
        run(walk_words);
    } else if (!strcmp(what, "strings") && count == 4) {
        states[0] = first;
        states[1] = strtoull(words[3], NULL, 16);
        run(walk_strings);
    } else if (strstr(what, "-ends") && count == 4) {
        end_state = first;
        ends_wanted = strtoul(words[3], NULL, 10);
        same_bits = strcmp(what, "few-ends") ? 0xffffffff : 0xff000fff;
        zero_bits = strcmp(what, "few-ends") ? 0xfff00000 : 0xff000fff;
        run(strcmp(what, "word-ends") ? end_strings : end_words);
        print_ends();
    } else {
        fprintf(stderr, "usage: collisions words TOP | strings STATE STATE | (word|string|few)-ends STATE COUNT\n");
        return 2;
    }
    return 0;
}
