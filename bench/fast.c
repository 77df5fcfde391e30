/* A TRAC T-64 processor in C, made for speed alone: docs/PERFORMANCE.md compares the proved program with it. Its
 * language, steps, needs, lines and statuses are those of docs/LANGUAGE.md and docs/trac.1; it takes whatever memory is
 * convenient. It is for Linux on x86-64. Nothing of it is proved, and only the jobs of bench.py test it.
 *
 *   gcc -O2 -o fast fast.c
 *   fast [--cells N] [--steps N] [--report] <SCRIPT    as trac
 *   fast CELLS STEPS <SCRIPT                           as plain.c
 *
 * How it works:
 * - A text is bytes. The active string is [p, end); tabs stand behind it, so that scanning needs no test for its end.
 *   What comes before it is free: a value is built there from its end backwards, and that of an active call needn't
 *   move.
 * - The neutral string is bytes from `text` up to n, without marks. Beside it stand `args`, one entry for each call
 *   mark and each comma mark (where the argument behind it begins), and `calls`, one for each open call. So a performed
 *   call searches for nothing. The entries of args count the marks.
 * - Needs: only idling and the end of a call make the size larger, and the size is at most the last need. So only
 *   idling and the calls that build something are tested. `least` is the least room that was left at a need: the peak
 *   is cells - least.
 * - Steps: the steps done are adj + p. A rule that deletes one character costs nothing more; the others change adj. The
 *   allowance is tested where a step can do something: at idling and at a performed call.
 * - A form is its characters without the gaps, and beside them the places of the gaps; its pointer is the number of
 *   characters and of gaps before it. Forms are found by a hash table, and linked in the order of their definition.
 * - Output is held until the next read, until its buffer is full, or for at most HOLD steps. Each print is noted with
 *   its step, so a failure is reported as if each print had been written at once. With -DHOLD=0 each is written before
 *   the next call. */
#define _GNU_SOURCE
#ifndef __clang__
#pragma GCC target("sse4.1,popcnt") /* x86-64-v2 has these */
#endif
#pragma GCC diagnostic ignored "-Wunused-parameter"
#include <errno.h>
#include <immintrin.h>
#include <signal.h>
#include <stdbool.h>
#include <stdint.h>
#include <stdio.h>
#include <stdlib.h>
#include <string.h>
#include <sys/mman.h>
#include <unistd.h>

#ifndef __OPTIMIZE__
#error "build with -O2: calls of scan must become jumps"
#endif
#ifdef __clang__
#pragma clang attribute push(__attribute__((target("sse4.1,popcnt"))), apply_to = function)
#endif
#ifndef HOLD
#define HOLD 1000000
#endif
#define likely(x) __builtin_expect(!!(x), 1)
#define unlikely(x) __builtin_expect(!!(x), 0)
#define NOINLINE __attribute__((noinline))
#define SLOW __attribute__((noinline, cold))

typedef uint8_t u8;
typedef uint32_t u32;
typedef uint64_t u64;
typedef int64_t i64;
typedef __int128 i128;
typedef unsigned __int128 u128;

enum { ENDED = 0, WORKSPACE = 1, USAGE = 2, STEPS = 3, INPUT_FAILED = 4, OUTPUT_FAILED = 5, NO_MEMORY = 6 };
enum { CHUNK = 65536, PRINTS = 4096, NONE = -1 };

static i64 cells = 65536;
static u64 allowance = 1000000;
static bool report;

/* ---- the end of a run */
static void send(void);

static SLOW _Noreturn void stop(int status, u64 steps, i64 peak) {
    send();
    char line[160];
    int n = 0;
    if (report) n += sprintf(line, "trac: %lu steps, peak %ld cells\n", steps, peak);
    if (status == WORKSPACE)
        n += sprintf(line + n, "trac: workspace of %ld cells full at step %lu\n", cells, steps + 1);
    if (status == STEPS) n += sprintf(line + n, "trac: allowance of %lu steps used up\n", allowance);
    if (status == INPUT_FAILED) n += sprintf(line + n, "trac: input failed at step %lu\n", steps + 1);
    if (status == OUTPUT_FAILED) n += sprintf(line + n, "trac: output failed at step %lu\n", steps + 1);
    if (n > 0 && write(2, line, n) < 0) { /* a failure of standard error is ignored */ }
    _exit(status);
}
static SLOW _Noreturn void no_memory(void) {
    dprintf(2, "trac: no memory for %ld cells\n", cells);
    _exit(NO_MEMORY);
}

/* ---- loads and copies of 16 bytes; all texts have so many bytes around them that may be read */
static inline __m128i load(const void *p) { return _mm_loadu_si128(p); }
static inline void store(void *p, __m128i v) { _mm_storeu_si128(p, v); }
static inline u32 bits(__m128i v) { return _mm_movemask_epi8(v); }
static inline u64 load64(const u8 *p) { u64 x; memcpy(&x, p, 8); return x; }

/* The place of the lowest bit of x > 0. (__builtin_ctz answers an int, and costs one more instruction to widen it.) */
static inline u64 first_bit(u64 x) {
    __asm__("rep bsf %0, %0" : "+r"(x) : : "cc");
    return x;
}

/* Copies the n bytes that end at `from` so that they end at `to`; up to 16 bytes more are written before them. The
 * places may overlap if to >= from. It is a loop, not memmove, because a call makes its caller save registers. */
static inline void copy_back(u8 *to, const u8 *from, i64 n) {
    store(to - 16, load(from - 16));
    for (i64 i = 16; unlikely(i < n); i += 16) store(to - 16 - i, load(from - 16 - i));
}

/* Copies the n bytes at `from` to `to`; up to 16 bytes more are written behind them. The places may overlap if
 * to <= from. */
static inline void copy_on(u8 *to, const u8 *from, i64 n) {
    store(to, load(from));
    for (i64 i = 16; unlikely(i < n); i += 16) store(to + i, load(from + i));
}
static inline bool same(const u8 *a, const u8 *b, i64 n) {
    for (; unlikely(n > 16); a += 16, b += 16, n -= 16)
        if (bits(_mm_cmpeq_epi8(load(a), load(b))) != 0xFFFF) return false;
    return ((bits(_mm_cmpeq_epi8(load(a), load(b))) ^ 0xFFFF) & ((1u << n) - 1)) == 0;
}

/* The place of the first occurrence of the m > 0 bytes x in s[from..to), or NONE. */
static i64 search(const u8 *s, i64 from, i64 to, const u8 *x, i64 m) {
    if (to - from < m) return NONE;
    const u8 *hit = m > 16 ? memmem(s + from, to - from, x, m) : NULL;
    if (m > 16) return hit ? hit - s : NONE;
    __m128i first = _mm_set1_epi8(x[0]), last = _mm_set1_epi8(x[m - 1]);
    for (i64 i = from; i <= to - m; i += 16) {
        u32 hits = bits(_mm_and_si128(_mm_cmpeq_epi8(load(s + i), first), _mm_cmpeq_epi8(load(s + i + m - 1), last)));
        for (; hits; hits &= hits - 1) {
            i64 at = i + first_bit(hits);
            if (at > to - m) return NONE;
            if (same(s + at, x, m)) return at;
        }
    }
    return NONE;
}

/* ---- output, held back, and input */
static u8 held[CHUNK];
static u64 held_len, print_count;
typedef struct { u64 end, steps; i64 peak; } Print;
static Print prints[PRINTS];

/* Writes; gives how many bytes were written before a failure. */
static u64 write_all(const u8 *s, u64 n) {
    u64 done = 0;
    while (done < n) {
        i64 r = write(1, s + done, n - done);
        if (r > 0) done += r;
        else if (r == 0 || errno != EINTR) break;
    }
    return done;
}
static void send(void) {
    u64 len = held_len, done = write_all(held, len), i = 0;
    held_len = print_count = 0;
    if (done == len) return;
    while (prints[i].end <= done) i++;
    stop(OUTPUT_FAILED, prints[i].steps, prints[i].peak);
}
static void print(const u8 *s, u64 n, u64 steps, i64 peak) {
    if (n == 0) return;
    if (n > CHUNK - held_len || print_count == PRINTS) send();
    if (n > CHUNK && write_all(s, n) < n) stop(OUTPUT_FAILED, steps, peak);
    if (n > CHUNK) return;
    memcpy(held + held_len, s, n);
    held_len += n;
    prints[print_count++] = (Print){held_len, steps, peak};
}

enum { NO_INPUT = -1, FAILED_INPUT = -2, LONG_INPUT = -3 };
static u8 input_block[16 + CHUNK + 16], *const input = input_block + 16;
static i64 input_at, input_end;
static bool input_over;
static u8 meta = '\'';

/* Reads up to CHUNK bytes: their number, or NO_INPUT or FAILED_INPUT. */
static i64 read_some(u8 *to) {
    if (input_over) return NO_INPUT;
    send();
    i64 r;
    do r = read(0, to, CHUNK);
    while (r < 0 && errno == EINTR);
    input_over = r == 0;
    return r > 0 ? r : r == 0 ? NO_INPUT : FAILED_INPUT;
}

/* How many bytes are in the buffer, which is filled where there are none; or as read_some. */
static i64 fill_input(void) {
    if (input_at < input_end) return input_end - input_at;
    i64 r = read_some(input);
    input_at = 0;
    input_end = r > 0 ? r : 0;
    return r;
}

/* Reads up to the meta character, at most `room` bytes before it, which end at `got_end`. Gives their number, or one of
 * the three above; `got` bytes came before a failure. A text that isn't whole in the buffer is read to `place`, where
 * there is memory for `room` + CHUNK bytes. */
static const u8 *got_end;
static i64 got;

static i64 read_string(i64 room, u8 *place) {
    i64 n = fill_input();
    got = 0;
    if (n < 0) return n;
    const u8 *from = input + input_at, *at = memchr(from, meta, n <= room ? n : room + 1);
    got_end = at;
    input_at += at ? at - from + 1 : n;
    if (at) return at - from;
    if (n > room) return LONG_INPUT;
    memcpy(place, from, n);
    for (;;) {
        got = n;
        got_end = place + n;
        i64 r = read_some(place + n);
        if (r < 0) return r == NO_INPUT ? n : FAILED_INPUT;
        at = memchr(place + n, meta, n + r <= room ? r : room + 1 - n);
        n += r;
        if (at) break;
        if (n > room) return LONG_INPUT;
    }
    input_at = 0;
    input_end = place + n - (at + 1);
    memcpy(input, at + 1, input_end);
    got_end = at;
    return at - place;
}

/* ---- forms */
typedef struct { u32 at, argument; } Gap; /* before character `at`; its ordinal is argument - 1 */

typedef struct Form {
    struct Form *chain, *before, *after; /* the next one in its place of the table; the neighbours by definition */
    u64 key;
    u8 *text; /* the characters of the body */
    Gap *gaps;
    u32 name_len, text_len, gap_count;
    u32 at, gap;           /* the pointer: the characters and the gaps before it */
    u32 text_cap, gap_cap; /* for how many there is memory */
    u8 name[];
} Form;

static Form *first_buckets[256], **buckets = first_buckets, *oldest, *newest;
static u32 bucket_shift = 64 - 8;
static i64 form_count, forms_cells, names_len;

/* Memory, in multiples of GRAIN: blocks up to SMALL that are given back are kept in lists by their size. */
enum { GRAIN = 32, SMALL = 1024, AREA = 1 << 18, SLACK = 16 };
static void *spare[SMALL / GRAIN + 1];
static u8 *area, *area_end;

static u64 whole(u64 size) { return (size + GRAIN - 1) / GRAIN * GRAIN; }
static u8 *fresh(u64 size) {
    u8 *block = malloc(size);
    return block ? block : (no_memory(), NULL);
}
static void *take(u64 size) {
    if (size > SMALL) return fresh(size);
    void *block = spare[size / GRAIN];
    if (block) {
        memcpy(&spare[size / GRAIN], block, sizeof block);
        return block;
    }
    if ((u64)(area_end - area) < size) area_end = (area = fresh(AREA)) + AREA;
    area += size;
    return area - size;
}
static void give_back(void *block, u64 size) {
    if (size > SMALL) return free(block);
    memcpy(block, &spare[size / GRAIN], sizeof block);
    spare[size / GRAIN] = block;
}

/* A name of 1 to 8 bytes is its own key; of others the key is a hash. */
#define MIX 0x9E3779B97F4A7C15u
static inline Form **bucket_of(u64 key) { return &buckets[key * MIX >> bucket_shift]; }
static inline u64 short_key(const u8 *s, u64 n) { return load64(s) << (-8 * n & 63); }
static SLOW u64 long_key(const u8 *s, u64 n) {
    u64 h = n;
    for (u64 i = 0; i + 8 <= n; i += 8) h = (h << 29 | h >> 35) * MIX ^ load64(s + i);
    return n == 0 ? h : (h << 29 | h >> 35) * MIX ^ load64(s + n - 8);
}
static SLOW Form *find_long(const u8 *name, u64 n) {
    u64 key = long_key(name, n);
    Form *f = *bucket_of(key);
    while (f && (f->key != key || f->name_len != n || !same(f->name, name, n))) f = f->chain;
    return f;
}
static inline Form *find(const u8 *name, u64 n) {
    if (unlikely(n - 1 >= 8)) return find_long(name, n);
    u64 key = short_key(name, n);
    Form *f = *bucket_of(key);
    while (f && (f->key != key || f->name_len != n)) f = f->chain;
    return f;
}
static void into_table(Form *f) {
    Form **b = bucket_of(f->key);
    f->chain = *b;
    *b = f;
}
static SLOW void more_buckets(void) {
    if (buckets != first_buckets) free(buckets);
    bucket_shift -= 2;
    buckets = calloc((u64)1 << (64 - bucket_shift), sizeof *buckets);
    if (!buckets) no_memory();
    for (Form *f = oldest; f; f = f->after) into_table(f);
}
static void leave_order(Form *f) {
    *(f->before ? &f->before->after : &oldest) = f->after;
    *(f->after ? &f->after->before : &newest) = f->before;
}
static void last_in_order(Form *f) {
    f->before = newest;
    f->after = NULL;
    newest = *(newest ? &newest->after : &oldest) = f;
}
static void take_text(Form *f, u32 len) {
    u64 size = whole((u64)len + 2 * SLACK);
    f->text = (u8 *)take(size) + SLACK;
    f->text_cap = size - 2 * SLACK;
}
static void take_gaps(Form *f, u32 count) {
    f->gap_cap = (count + 3) / 4 * 4;
    f->gaps = take(f->gap_cap * sizeof(Gap));
}
static u64 block_size(u32 name_len) { return whole(sizeof(Form) + name_len + SLACK); }
static void give_text(Form *f) { give_back(f->text - SLACK, f->text_cap + 2 * SLACK); }
static void give_gaps(Form *f) { if (f->gap_cap) give_back(f->gaps, f->gap_cap * sizeof(Gap)), f->gap_cap = 0; }
static void give_form(Form *f) { give_text(f), give_gaps(f), give_back(f, block_size(f->name_len)); }
static Form *new_form(const u8 *name, u32 n, u32 len) {
    if (unlikely((u64)form_count >> (64 - bucket_shift))) more_buckets();
    Form *f = take(block_size(n));
    f->key = n - 1 < 8 ? short_key(name, n) : long_key(name, n);
    f->name_len = n, f->gap_cap = 0;
    copy_on(f->name, name, n);
    take_text(f, len), into_table(f), last_in_order(f);
    form_count++, names_len += n, forms_cells += 3 + n;
    return f;
}
static inline void define(const u8 *name, u32 n, const u8 *text, u32 len) {
    Form *f = find(name, n);
    if (!f) {
        f = new_form(name, n, len);
    } else {
        forms_cells -= f->text_len + f->gap_count;
        if (f != newest) leave_order(f), last_in_order(f);
        if (unlikely(f->gap_cap > 64)) give_gaps(f);
        if (unlikely(f->text_cap < len || (f->text_cap > SMALL && f->text_cap / 4 > len)))
            give_text(f), take_text(f, len);
    }
    copy_on(f->text, text, len);
    f->text_len = len;
    f->gap_count = f->at = f->gap = 0;
    forms_cells += len;
}
static void delete(Form *f) {
    if (!f) return;
    form_count--, names_len -= f->name_len, forms_cells -= 3 + (i64)f->name_len + f->text_len + f->gap_count;
    Form **b = bucket_of(f->key);
    while (*b != f) b = &(*b)->chain;
    *b = f->chain;
    leave_order(f), give_form(f);
}
static void delete_all(void) {
    for (Form *f = oldest, *next; f; f = next) next = f->after, give_form(f);
    memset(buckets, 0, sizeof *buckets << (64 - bucket_shift));
    oldest = newest = NULL;
    form_count = forms_cells = names_len = 0;
}

/* Where the characters before gap `gap` end. */
static inline u32 piece_end(const Form *f, u32 gap) { return gap < f->gap_count ? f->gaps[gap].at : f->text_len; }

/* Each occurrence of x, m > 0 bytes, becomes a gap. `beside` has memory for the text. */
static void segment(Form *f, const u8 *x, u32 m, u32 argument, u8 *beside) {
    static Gap *gaps;
    static u64 cap;
    u64 done = 0, made = 0, count = 0;
    for (u32 g = 0; g <= f->gap_count;) {
        u64 end = piece_end(f, g);
        i64 hit = search(f->text, done, end, x, m);
        u64 to = hit == NONE ? end : (u64)hit;
        copy_on(beside + made, f->text + done, to - done);
        made += to - done;
        done = hit == NONE ? to : to + m;
        if (count == cap && !(gaps = realloc(gaps, (cap = 2 * cap + 256) * sizeof(Gap)))) no_memory();
        if (hit != NONE) gaps[count++] = (Gap){made, argument};
        else if (g++ < f->gap_count) gaps[count++] = (Gap){made, f->gaps[g - 1].argument};
    }
    if (count == f->gap_count) return;
    if (f->gap_cap < count) give_gaps(f), take_gaps(f, count);
    memcpy(f->text, beside, made);
    memcpy(f->gaps, gaps, count * sizeof(Gap));
    forms_cells += (i64)(made + count) - f->text_len - f->gap_count;
    f->text_len = made;
    f->gap_count = count;
}

/* The pointer goes to just behind the character before `at`, or just before character `at`. */
static void move_on(Form *f, u32 at) {
    f->at = at;
    while (f->gap < f->gap_count && f->gaps[f->gap].at < at) f->gap++;
}
static void move_back(Form *f, u32 at) {
    f->at = at;
    while (f->gap > 0 && f->gaps[f->gap - 1].at > at) f->gap--;
}
static void display(const Form *f, u64 steps, i64 peak) {
    char mark[16];
    for (u32 g = 0, from = 0; g <= f->gap_count; g++) {
        u32 end = piece_end(f, g);
        if (g == f->gap) {
            print(f->text + from, f->at - from, steps, peak);
            print((const u8 *)"<^>", 3, steps, peak);
            from = f->at;
        }
        print(f->text + from, end - from, steps, peak);
        if (g < f->gap_count) print((u8 *)mark, sprintf(mark, "<%u>", f->gaps[g].argument - 1), steps, peak);
        from = end;
    }
}

/* ---- numbers and bit strings */
#define LIMIT ((i128)(~(u128)0 >> 1))
#define E8 100000000u
#define E16 10000000000000000u

/* How many of the last 16 bytes before e, and of the last n, are digits at the end. */
static inline u32 tail_digits(const u8 *e, u32 n) {
    __m128i d = _mm_add_epi8(load(e - 16), _mm_set1_epi8(127 - '9'));
    u32 other = bits(_mm_cmplt_epi8(d, _mm_set1_epi8(118))), k = __builtin_clz(other << 16 | 0x8000);
    return k < n ? k : n;
}

/* The number of the k <= 16 digits before e. */
static inline u64 parse16(const u8 *e, u64 k) {
    static const u8 mask[32] = {[16] = 15, 15, 15, 15, 15, 15, 15, 15, 15, 15, 15, 15, 15, 15, 15, 15};
    __m128i d = _mm_and_si128(load(e - 16), load(mask + k));
    d = _mm_maddubs_epi16(d, _mm_set1_epi16(0x010A));
    d = _mm_madd_epi16(d, _mm_set1_epi32(0x00010064));
    d = _mm_packus_epi32(d, d);
    d = _mm_madd_epi16(d, _mm_set1_epi32(0x00012710));
    u64 x = _mm_cvtsi128_si64(d);
    return (x & 0xFFFFFFFF) * E8 + (x >> 32);
}

/* The number of a text of n bytes before e that has at most 15 and no prefix; false for others. It goes digit by digit:
 * numbers are short, and the processor runs ahead of a loop, but waits for the result of vectors. */
static inline bool short_value(const u8 *e, i64 n, i64 *value) {
    const u8 *s = e - n;
    if (unlikely(n > 15)) return false;
    i64 x = 0, sign = 1;
    for (; s != e && (u8)(*s - '0') <= 9; s++) x = x * 10 + (*s - '0');
    if (unlikely(s != e)) {
        if (s != e - n || n == 1 || (*s != '-' && *s != '+')) return false;
        sign = *s++ == '-' ? -1 : 1;
        for (; s != e && (u8)(*s - '0') <= 9; s++) x = x * 10 + (*s - '0');
    }
    *value = sign * x;
    return s == e;
}

/* The number at the right end of a text of n bytes before e: its digits are the last ones. */
typedef struct { u32 digits, prefix; bool negative; } Number;

static Number number_at(const u8 *e, u32 n) {
    u32 k = 0, more;
    do k += more = tail_digits(e - k, n - k);
    while (more == 16);
    u8 sign = k > 0 && k < n ? e[-(i64)k - 1] : 0;
    return (Number){k, n - k - (sign == '-' || sign == '+'), sign == '-'};
}
static inline Number without_zeros(const u8 *e, Number x) {
    while (x.digits && e[-(i64)x.digits] == '0') x.digits--;
    x.negative &= x.digits > 0;
    return x;
}

/* Its value, false where it is out of range. */
static inline bool parse(const u8 *e, Number x, i128 *value) {
    u32 k = without_zeros(e, x).digits;
    if (k > 39 || (k == 39 && e[-39] > '1')) return false;
    u128 v = k > 32 ? parse16(e - 32, k - 32) : 0;
    if (k > 16) v = v * E16 + parse16(e - 16, k < 32 ? k - 16 : 16);
    v = v * E16 + parse16(e, k < 16 ? k : 16);
    if (v > (u128)LIMIT) return false;
    *value = x.negative ? -(i128)v : (i128)v;
    return true;
}

/* Whether the number before a is greater than the one before b. */
static bool greater(const u8 *a, Number x, const u8 *b, Number y) {
    x = without_zeros(a, x);
    y = without_zeros(b, y);
    if (x.negative != y.negative) return y.negative;
    i64 order = (i64)x.digits - y.digits;
    if (order == 0) order = memcmp(a - x.digits, b - y.digits, x.digits);
    return x.negative ? order < 0 : order > 0;
}

/* The number without its sign: its remainder by m > 0 where `remain`, else itself, or m where it is greater. */
static u64 short_number(const u8 *e, Number x, u64 m, bool remain) {
    u64 v = 0;
    for (i64 i = -(i64)x.digits; i < 0; i++) {
        v = v * 10 + (e[i] - '0');
        if (v >= m && !remain) return m;
        v %= m;
    }
    return v;
}

/* Writes 8 digits before e, those of x < 10^8 with zeros before them; gives how many zeros, 7 for 0. */
static inline u64 write8(u8 *e, u32 x) {
    u64 high = (u64)x * 3518437209u >> 45, v = high | (u64)(x - high * 10000) << 32; /* two of 4 digits, */
    u64 q = v * 10486 >> 20 & 0x7F0000007F;
    v = q | (v - q * 100) << 16; /* four of 2, */
    q = v * 103 >> 10 & 0xF000F000F000F;
    v = q | (v - q * 10) << 8; /* eight of 1, the first of them in the lowest byte */
    u64 digits = v | 0x3030303030303030;
    memcpy(e - 8, &digits, 8);
    return first_bit(v | (u64)1 << 56) / 8;
}

/* Writes the decimal form of a number so that it ends at e, and gives its begin. */
static u8 *format(u8 *e, i128 value) {
    u128 x = value < 0 ? -(u128)value : (u128)value;
    for (; x >> 64; x /= E16, e -= 16) {
        u64 low = x % E16;
        write8(e, low % E8), write8(e - 8, low / E8);
    }
    u64 y = x;
    for (; y >= E8; y /= E8, e -= 8) write8(e, y % E8);
    e += write8(e, y) - 8;
    if (value < 0) *--e = '-';
    return e;
}
static i64 octal_digits(const u8 *e, i64 n) {
    i64 k = 0;
    while (k < n && (e[-k - 1] & 0xF8) == '0') k++;
    return k;
}

/* Three bits of the k octal digits at s from bit `at` on; bits outside are 0, or those of the other end if `around`. */
static u8 three_bits(const u8 *s, i64 k, i64 at, bool around) {
    i64 i = (at + 3 * k) / 3 - k, part = at - 3 * i, j = i + 1;
    if (around) {
        i = i < 0 ? i + k : i >= k ? i - k : i;
        j = j < 0 ? j + k : j >= k ? j - k : j;
    }
    u32 two = (i >= 0 && i < k ? (s[i] & 7) << 3 : 0) | (j >= 0 && j < k ? s[j] & 7 : 0);
    return '0' + (two >> (3 - part) & 7);
}

/* ---- the machine */
/* Each rule of the scanner, and each function of the language, is a C function of the machine's state, and ends by
 * calling the next. With -O2 such a call is a jump, with that state in registers. */
#define STATE u8 *p, u8 *n, u8 **top, u64 *open
#define RULE(name) static NOINLINE void name(STATE)
RULE(scan);
RULE(close_call);

/* A function is given where its call's arguments begin, where its mode stands, and how much it may build. Argument k is
 * [a[k], END(k)), for any k up to 4 more than there are. */
#define CALL u8 *p, u8 **a, u64 *open, i64 room
#define PASS p, a, open, room
#define FUNCTION(name) static void name(CALL)
#define END(k) (a[(k) + 1])
#define LEN(k) (END(k) - a[k])
#define ACTIVE (*open & 1)

static u8 *low, *middle, *rest_end, *text, *end; /* see main */
static u8 **args_begin, **args_end;              /* args_end: of the performed call */
static u64 *calls_begin;
static i64 least;      /* the least room that was left at a need */
static i64 to_room;    /* the room of a call is to_room + p - n - marks */
static u64 adj, limit; /* limit: the steps where the allowance or the time of held output ends */

#define STEPS_DONE (adj + (u64)p) /* where p is at the ) of a call */
#define PEAK (cells - least)

static inline void settle(void) { to_room = cells + 1 - forms_cells - (i64)end + (i64)text + (i64)args_begin / 8; }
static inline void hold(u64 steps) { if (steps + HOLD < limit) limit = steps + HOLD; }
static SLOW void no_room(CALL) { stop(WORKSPACE, STEPS_DONE, PEAK); }

/* So much is built. */
#define NEED(built) do { \
        i64 left = room - (i64)(built); \
        if (unlikely(left < 0)) return no_room(PASS); \
        if (unlikely(left < least)) least = left; \
    } while (0)

/* The value is the m bytes that end at `value`. */
static inline void give(CALL, bool forced, const u8 *value, i64 m) {
    NEED(m);
    if (ACTIVE || forced) {
        if (value != p + 1) copy_back(p + 1, value, m);
        adj += m;
        return scan(p + 1 - m, a[0], a, open);
    }
    copy_on(a[0], value - m, m);
    return scan(p + 1, a[0] + m, a, open);
}

#define GIVE_NULL return scan(p + 1, a[0], a, open)
#define GIVE(value, m) return give(PASS, false, value, m)
#define GIVE_CHOICE(test) do { i64 k = (test) ? 3 : 4; return give(PASS, false, END(k), LEN(k)); } while (0)
#define GIVE_Z(k) return give(PASS, true, END(k), LEN(k)) /* whatever the call's mode */
#define GIVE_BUILT(begin) return give(PASS, false, p + 1, p + 1 - (begin)) /* it stands from `begin` up to p */
#define FIND_FORM Form *f = find(a[1], LEN(1)); if (!f) GIVE_NULL

FUNCTION(read_to_meta) {
    i64 m = read_string(room, end == rest_end ? middle : low), rest = end - p - 1;
    if (m == NO_INPUT) stop(ENDED, STEPS_DONE + 1, PEAK);
    if (m == LONG_INPUT) return no_room(PASS);
    NEED(m == FAILED_INPUT ? got : m);
    if (m == FAILED_INPUT) stop(INPUT_FAILED, STEPS_DONE, PEAK);
    if (!ACTIVE || got_end - m != middle || rest > m) GIVE(got_end, m);
    /* A long text was read to a place of its own, and what is left of active goes behind it. */
    memcpy(middle + m, p + 1, rest);
    adj += p + 1 - middle;
    end = middle + m + rest;
    store(end, _mm_set1_epi8('\t'));
    settle();
    return scan(middle, a[0], a, open);
}
FUNCTION(read_character) {
    i64 n = fill_input();
    if (n == NO_INPUT) stop(ENDED, STEPS_DONE + 1, PEAK);
    if (n == FAILED_INPUT) stop(INPUT_FAILED, STEPS_DONE, PEAK);
    input_at++;
    GIVE(input + input_at, 1);
}
FUNCTION(change_meta) { if (LEN(1) > 0) meta = *a[1]; GIVE_NULL; }
FUNCTION(halt) { stop(ENDED, STEPS_DONE + 1, PEAK); }
FUNCTION(print_string) { print(a[1], LEN(1), STEPS_DONE, PEAK); hold(STEPS_DONE); GIVE_NULL; }
FUNCTION(print_form) { FIND_FORM; display(f, STEPS_DONE, PEAK); hold(STEPS_DONE); GIVE_NULL; }
FUNCTION(define_string) {
    NEED(3 + LEN(1) + LEN(2));
    define(a[1], LEN(1), a[2], LEN(2)), settle();
    GIVE_NULL;
}
FUNCTION(segment_string) {
    FIND_FORM;
    f->at = f->gap = 0;
    for (i64 k = 2; a + k < args_end; k++)
        if (LEN(k) > 0) segment(f, a[k], LEN(k), k, low);
    settle();
    GIVE_NULL;
}
FUNCTION(delete_definition) {
    for (u8 **b = a + 1; b < args_end; b++) delete(find(b[0], b[1] - b[0]));
    settle();
    GIVE_NULL;
}
FUNCTION(delete_all_forms) { delete_all(); settle(); GIVE_NULL; }
FUNCTION(list_names) {
    u8 *to = p + 1;
    if (form_count * LEN(1) + names_len > room) return no_room(PASS);
    for (Form *f = newest; f; f = f->before) {
        copy_back(to, f->name + f->name_len, f->name_len), to -= f->name_len;
        copy_back(to, END(1), LEN(1)), to -= LEN(1);
    }
    GIVE_BUILT(to);
}

/* The value of cl for a form with gaps, from its end on. */
static NOINLINE void fill(CALL, const Form *f) {
    u8 *to = p + 1, *const lowest = to - room;
    const u8 *const body = f->text, *last = body + f->text_len;
    for (const Gap *g = f->gaps + f->gap_count, *first = f->gaps + f->gap; g != first;) {
        const u8 *from = body + (--g)->at, *piece = last;
        to -= last - from;
        last = from;
        if (unlikely(to < lowest)) return no_room(PASS);
        copy_back(to + (piece - from), piece, piece - from);
        u8 **b = a + g->argument;
        if (b >= args_end) continue;
        to -= b[1] - b[0];
        if (unlikely(to < lowest)) return no_room(PASS);
        copy_back(to + (b[1] - b[0]), b[1], b[1] - b[0]);
    }
    i64 m = last - body - f->at;
    if (to - m < lowest) return no_room(PASS);
    copy_back(to, last, m);
    GIVE_BUILT(to - m);
}
FUNCTION(call_form) {
    FIND_FORM;
    if (f->gap < f->gap_count) return fill(PASS, f);
    GIVE(f->text + f->text_len, f->text_len - f->at);
}
FUNCTION(call_segment) {
    FIND_FORM;
    if (f->at == f->text_len && f->gap == f->gap_count) GIVE_Z(2);
    u32 from = f->at, to = f->at = piece_end(f, f->gap);
    if (f->gap < f->gap_count) f->gap++;
    GIVE(f->text + to, to - from);
}
FUNCTION(call_character) {
    FIND_FORM;
    if (f->at == f->text_len) GIVE_Z(2);
    move_on(f, f->at + 1);
    GIVE(f->text + f->at, 1);
}
FUNCTION(call_number) {
    FIND_FORM;
    Number d = number_at(END(2), LEN(2));
    u64 m = short_number(END(2), d, UINT32_MAX, false), most = d.negative ? f->at : f->text_len - f->at;
    if (m == 0) GIVE_NULL;
    if (most == 0) GIVE_Z(3);
    if (m > most) m = most;
    u32 value = d.negative ? f->at : f->at + m;
    d.negative ? move_back(f, f->at - m) : move_on(f, f->at + m);
    GIVE(f->text + value, m);
}
FUNCTION(initial) {
    FIND_FORM;
    if (LEN(2) == 0) GIVE_NULL;
    for (u32 gap = f->gap, from = f->at;; gap++) {
        u32 to = piece_end(f, gap);
        i64 hit = search(f->text, from, to, a[2], LEN(2)), m = hit - f->at;
        if (hit != NONE) {
            f->at = hit + LEN(2);
            f->gap = gap;
            GIVE(f->text + hit, m);
        }
        if (gap == f->gap_count) GIVE_Z(3);
        from = to;
    }
}
FUNCTION(call_restore) { FIND_FORM; f->at = f->gap = 0; GIVE_NULL; }
FUNCTION(equal) { GIVE_CHOICE(LEN(1) == LEN(2) && same(a[1], a[2], LEN(1))); }
static NOINLINE void greater_long(CALL) {
    GIVE_CHOICE(greater(END(1), number_at(END(1), LEN(1)), END(2), number_at(END(2), LEN(2))));
}
FUNCTION(greater_number) {
    i64 x, y;
    if (unlikely(!short_value(END(1), LEN(1), &x))) return greater_long(PASS);
    if (unlikely(!short_value(END(2), LEN(2), &y))) return greater_long(PASS);
    GIVE_CHOICE(x > y);
}
static NOINLINE void arithmetic(CALL) {
    Number x = number_at(END(1), LEN(1)), y = number_at(END(2), LEN(2));
    u8 operation = *a[0] | 0x20;
    i128 r = 0, s = 0;
    bool ok = parse(END(1), x, &r) && parse(END(2), y, &s);
    if (operation == 'a') ok = ok && !__builtin_add_overflow(r, s, &r);
    else if (operation == 's') ok = ok && !__builtin_sub_overflow(r, s, &r);
    else if (operation == 'm') ok = ok && !__builtin_mul_overflow(r, s, &r);
    else if ((ok = ok && s != 0)) r /= s;
    if (!ok || r < -LIMIT) GIVE_Z(3);
    u8 *to = format(p + 1, r);
    NEED(p + 1 - to + x.prefix);
    copy_back(to, a[1] + x.prefix, x.prefix);
    GIVE_BUILT(to - x.prefix);
}
static inline void sum(CALL, bool difference) {
    i64 x, y;
    if (unlikely(!short_value(END(1), LEN(1), &x))) return arithmetic(PASS);
    if (unlikely(!short_value(END(2), LEN(2), &y))) return arithmetic(PASS);
    x = difference ? x - y : x + y;
    if (unlikely((u64)x >= E8)) return arithmetic(PASS);
    GIVE_BUILT(p - 7 + write8(p + 1, x));
}
FUNCTION(add) { return sum(PASS, false); }
FUNCTION(subtract) { return sum(PASS, true); }
static inline void combine(CALL, bool both) {
    i64 x = octal_digits(END(1), LEN(1)), y = octal_digits(END(2), LEN(2));
    i64 k = (x < y) == both ? x : y, prefix = LEN(1) - x;
    NEED(prefix + k);
    for (i64 i = -1; i >= -k; i--) {
        u8 c = -i <= x ? END(1)[i] : '0', d = -i <= y ? END(2)[i] : '0';
        p[1 + i] = both ? c & d : c | d;
    }
    copy_back(p + 1 - k, a[1] + prefix, prefix);
    GIVE_BUILT(p + 1 - k - prefix);
}
FUNCTION(bit_union) { return combine(PASS, false); }
FUNCTION(bit_intersection) { return combine(PASS, true); }
FUNCTION(bit_complement) {
    i64 k = octal_digits(END(1), LEN(1));
    NEED(LEN(1));
    copy_back(p + 1, END(1), LEN(1));
    for (i64 i = -1; i >= -k; i--) p[1 + i] ^= 7;
    GIVE_BUILT(p + 1 - LEN(1));
}
static inline void move_bits(CALL, bool around) {
    i64 k = octal_digits(END(2), LEN(2));
    Number d = number_at(END(1), LEN(1));
    NEED(LEN(2));
    i64 by = k ? short_number(END(1), d, 3 * k, around) : 0;
    if (d.negative) by = -by;
    for (i64 i = 0; i < k; i++) p[1 - k + i] = three_bits(END(2) - k, k, 3 * i + by, around);
    copy_back(p + 1 - k, END(2) - k, LEN(2) - k);
    GIVE_BUILT(p + 1 - LEN(2));
}
FUNCTION(bit_shift) { return move_bits(PASS, false); }
FUNCTION(bit_rotate) { return move_bits(PASS, true); }

/* The functions by their names: a product of the two letters leads to one of 64 places. */
#define CODE(x, y) ((x) | (y) << 8)
#define PLACE(code) ((u32)(code) * 0x7204E52Du >> 26)
#define NAME(x, y, function) [PLACE(CODE(x, y))] = {function, CODE(x, y)}
static const struct { void (*function)(CALL); u64 name; } functions[64] = {
    NAME('r', 's', read_to_meta), NAME('r', 'c', read_character), NAME('c', 'm', change_meta), NAME('h', 'l', halt),
    NAME('p', 's', print_string), NAME('p', 'f', print_form), NAME('d', 's', define_string),
    NAME('s', 's', segment_string), NAME('l', 'n', list_names), NAME('d', 'd', delete_definition),
    NAME('d', 'a', delete_all_forms), NAME('c', 'l', call_form), NAME('c', 's', call_segment),
    NAME('c', 'c', call_character), NAME('c', 'n', call_number),
    NAME('i', 'n', initial), NAME('c', 'r', call_restore), NAME('e', 'q', equal), NAME('g', 'r', greater_number),
    NAME('a', 'd', add), NAME('s', 'u', subtract), NAME('m', 'l', arithmetic), NAME('d', 'v', arithmetic),
    NAME('b', 'u', bit_union), NAME('b', 'i', bit_intersection), NAME('b', 'c', bit_complement),
    NAME('b', 's', bit_shift), NAME('b', 'r', bit_rotate),
};

/* The allowance is used up, or output has been held long enough. */
static SLOW void at_limit(STATE) {
    if (STEPS_DONE >= allowance) stop(STEPS, allowance, PEAK);
    send();
    limit = allowance;
    return scan(p, n, top, open);
}
/* Idling, and the eight steps after it, up to the first ) of #(ps,#(rs)). */
RULE(idle) {
    if (STEPS_DONE >= limit) return at_limit(p, n, top, open);
    i64 left = cells - forms_cells - 11;
    if (left < 0) stop(WORKSPACE, STEPS_DONE, PEAK);
    if (left < least) least = left;
    adj = STEPS_DONE + 8;
    end = rest_end;
    p = memcpy(end - 2, "))", 2);
    adj -= (u64)p;
    memcpy(text, "psrs", 4);
    args_begin[0] = text, args_begin[1] = args_begin[2] = text + 2;
    calls_begin[0] = (u64)args_begin | 1, calls_begin[1] = (u64)(args_begin + 2) | 1;
    settle();
    return close_call(p, text + 4, args_begin + 3, calls_begin + 2);
}
/* Layout; a tab behind active is its end. */
RULE(layout) {
    if (unlikely(p == end)) return idle(p, n, top, open);
    return scan(p + 1, n, top, open);
}
/* Protection: the text is added while its end is searched for. */
RULE(protect) {
    u8 *from = p + 1, *to = n;
    for (u32 depth = 1;; from += 16, to += 16) {
        __m128i v = load(from);
        store(to, v);
        /* The opening parentheses, too. */
        u32 closing = bits(_mm_cmpeq_epi8(_mm_or_si128(v, _mm_set1_epi8(1)), _mm_set1_epi8(')')));
        if (closing) {
            u32 opening = bits(_mm_cmpeq_epi8(v, _mm_set1_epi8('(')));
            for (closing ^= opening; closing; closing &= closing - 1) {
                u32 up_to = closing ^ (closing - 1);
                depth += _mm_popcnt_u32(opening & up_to) - 1;
                if (depth == 0) {
                    u64 k = first_bit(closing);
                    adj += p - (from + k);
                    return scan(from + k + 1, to + k, top, open);
                }
                opening &= ~up_to;
            }
            depth += _mm_popcnt_u32(opening);
        }
        if (unlikely(from + 16 >= end)) break;
    }
    adj += p + 1 - end;
    return scan(end, n, top, open);
}
/* Argument. */
RULE(comma) {
    if (likely(open != calls_begin)) *top++ = n;
    return scan(p + 1, n, top, open);
}
/* Active call, neutral call, number sign. A name of two letters with a comma after it is taken at once. */
RULE(number_sign) {
    u64 w = load64(p);
    if (likely((w & 0xFFFF) == 0x2823)) { /* #( */
        *open++ = (u64)top | 1, adj -= 1, p += 2, w >>= 16;
    } else if ((w & 0xFFFFFF) == 0x282323) { /* ##( */
        *open++ = (u64)top, adj -= 2, p += 3, w >>= 24;
    } else {
        return scan(p + 1, n + 1, top, open); /* scan has added it */
    }
    *top++ = n;
    if (likely((w & 0xFF4040) == 0x2C4040)) { /* xx, */
        memcpy(n, &w, 2);
        *top++ = n += 2;
        p += 3;
    }
    return scan(p, n, top, open);
}
/* End of call. */
RULE(close_call) {
    if (unlikely(open == calls_begin)) return scan(p + 1, n, top, open);
    if (unlikely(STEPS_DONE >= limit)) return at_limit(p, n, top, open);
    i64 room = to_room + (i64)p - (i64)n - (i64)((u64)top >> 3);
    __m128i here = _mm_set1_epi64x((i64)n);
    store(top, here), store(top + 2, here), store(top + 4, here); /* so arguments that are missing are null */
    args_end = top;
    u8 **a = (u8 **)(*--open & ~(u64)1);
    u32 name = CODE(a[0][0], a[0][1]) | 0x2020, place = PLACE(name);
    if (unlikely(LEN(0) != 2 || functions[place].name != name)) GIVE_NULL;
    return functions[place].function(PASS);
}
/* Character: scan has added it. */
RULE(ordinary) { return scan(p + 1, n + 1, top, open); }

/* Which bytes have a rule of their own: each is the one at the place of its low half. 0 to 8 are taken for such too. */
static inline __m128i with_rule(__m128i v) {
    const __m128i special = _mm_setr_epi8(0, 0, 0, '#', 0, 0, 0, 0, '(', ')', '\n', 0, ',', '\r', 0, 0);
    v = _mm_max_epu8(v, _mm_set1_epi8('\n'));
    return _mm_cmpeq_epi8(_mm_shuffle_epi8(special, v), v);
}

#define FOUR(x) x, x, x, x
static void (*const rules[256])(STATE) = {
    FOUR(ordinary), FOUR(ordinary), ordinary, ['\t'] = layout, ['\n'] = layout, ['\r'] = layout,
    ['#'] = number_sign, ['('] = protect, [')'] = close_call, [','] = comma,
};

/* As scan, for a longer text. */
RULE(scan_on) {
    __m128i v = load(p);
    store(n, v);
    u32 found = bits(with_rule(v));
    if (!found) {
        for (p += 16, n += 16;; p += 64, n += 64) {
            __m128i v = load(p), w = load(p + 16), x = load(p + 32), y = load(p + 48);
            store(n, v), store(n + 16, w), store(n + 32, x), store(n + 48, y);
            __m128i either = _mm_or_si128(_mm_or_si128(with_rule(v), with_rule(w)),
                                          _mm_or_si128(with_rule(x), with_rule(y)));
            if (bits(either)) break;
        }
        while (!(found = bits(with_rule(load(p))))) p += 16, n += 16;
    }
    u64 k = first_bit(found);
    return rules[p[k]](p + k, n + k, top, open);
}

/* The characters before the first that has a rule of its own are added, and that rule is next. The first few are added
 * one by one: most texts are short, and the processor runs ahead over guessed jumps, but would wait for the place that
 * a look at 16 gives. */
RULE(scan) {
#pragma GCC unroll 8
    for (int i = 0; i < 8; i++, p++, n++) {
        void (*rule)(STATE) = rules[*n = *p];
        if (rule) return rule(p, n, top, open);
    }
    return scan_on(p, n, top, open);
}

/* ---- the program */
static u64 number_word(const char *s, u64 most) {
    u64 x = 0, len = s ? strspn(s, "0123456789") : 0;
    if (len > 0 && len < 19 && !s[len]) x = strtoull(s, NULL, 10);
    if (x > 0 && x <= most) return x;
    dprintf(2, "usage: trac [--cells N] [--steps N] [--report]\n");
    _exit(USAGE);
}

int main(int argc, char **argv) {
    bool plain = argc == 3 && argv[1][0] != '-'; /* as plain.c */
    if (plain) cells = number_word(argv[1], 1 << 30), allowance = number_word(argv[2], UINT64_MAX);
    report = plain && getenv("REPORT");
    for (int i = 1; i < argc && !plain; i++) {
        const char *w = argv[i];
        if (strcmp(w, "--report") == 0) report = true;
        else if (strcmp(w, "--cells") == 0) cells = number_word(argv[++i], 1 << 24);
        else if (strcmp(w, "--steps") == 0) allowance = number_word(argv[++i], 1000000000000);
        else if (strncmp(w, "--cells=", 8) == 0) cells = number_word(w + 8, 1 << 24);
        else if (strncmp(w, "--steps=", 8) == 0) allowance = number_word(w + 8, 1000000000000);
        else number_word(NULL, 0);
    }
    signal(SIGPIPE, SIG_IGN);
    /* Memory that costs nothing until it is used: the marks, active, neutral. `cells` + pad bytes are before active if
     * it ends at rest_end, and if it begins at `middle` with a text that was read to there; so a value always fits
     * before it. Long texts are in huge pages. */
    u64 huge = 1 << 21, pad = CHUNK + 256, marks = 8 * ((u64)cells + 64);
    u64 w = cells > (i64)huge ? (cells + huge - 1) & -huge : (u64)cells, size = 2 * marks + 3 * w + 4 * pad + 2 * huge;
    u8 *block = mmap(NULL, size, PROT_READ | PROT_WRITE, MAP_PRIVATE | MAP_ANONYMOUS | MAP_NORESERVE, -1, 0);
    if (block == MAP_FAILED) no_memory();
    args_begin = (u8 **)block;
    calls_begin = (u64 *)(block + marks);
    low = block + 2 * marks;
    middle = (u8 *)(((u64)low + pad + w + huge - 1) & -huge);
    end = rest_end = middle + w + pad;
    u8 *long_text = (u8 *)(((u64)rest_end + 2 * pad + huge - 1) & -huge);
    text = long_text - pad;
    if (w > huge) madvise(middle, w, MADV_HUGEPAGE), madvise(long_text, w, MADV_HUGEPAGE);
    store(end, _mm_set1_epi8('\t'));
    least = cells, limit = allowance, adj = -(u64)end;
    scan(end, text, args_begin, calls_begin);
}
#ifdef __clang__
#pragma clang attribute pop
#endif
