/* A TRAC T-64 processor in plain C over one block of 32-bit cells, with the steps, needs and peaks of docs/LANGUAGE.md:
 * docs/PERFORMANCE.md compares the proved program with it. A call has at most 4095 commas. Nothing of it is proved, and
 * only the jobs of bench.py test it.
 *
 *   gcc -O2 -o plain plain.c
 *   plain CELLS STEPS <SCRIPT      with REPORT in the environment it prints the steps and the peak, too */
#define _DEFAULT_SOURCE /* for getchar_unlocked */
#include <stdio.h>
#include <stdlib.h>
#include <string.h>
#include <stdint.h>

typedef uint32_t cell;
enum { CALL_A = 1u << 30, CALL_N = 2u << 30, TAG = 3u << 30, COMMA = 256, GAP = 1u << 29 };
/* A cell is a byte, 0 to 255; COMMA; GAP and an ordinal; in the store also a head, a plain number; or a call mark: its
 * tag and the distance to the mark before it. */

static cell *B;
static uint32_t W, S, N, A;        /* store [0, S), neutral [S, S + N), active [W - A, W) */
static uint32_t last = UINT32_MAX; /* the place of the last call mark in neutral */
static uint64_t steps, allowance;
static uint32_t peak;
static int meta = '\'';
#define FREE (W - S - N - A)
#define NEU (B + S)
static void push(cell c) { NEU[N++] = c; }
static int need(uint32_t n) {
    if (n > W) return 0;
    if (n > peak) peak = n;
    return 1;
}
static void fin(int status) {
    fflush(stdout);
    if (getenv("REPORT")) fprintf(stderr, "trac: %llu steps, peak %u cells\n", (unsigned long long)steps, peak);
    if (status == 1)
        fprintf(stderr, "trac: workspace of %u cells full at step %llu\n", W, (unsigned long long)steps + 1);
    if (status == 3) fprintf(stderr, "trac: allowance of %llu steps used up\n", (unsigned long long)allowance);
    exit(status);
}
/* The arguments of the innermost call: where each begins and ends. */
static uint32_t as_[4096], ae_[4096];
static uint32_t argc_;
static void args(void) {
    uint32_t k = 0, i = last + 1;
    as_[0] = i;
    for (; i < N; i++)
        if (NEU[i] == COMMA) {
            ae_[k++] = i;
            as_[k] = i + 1;
        }
    ae_[k++] = N;
    argc_ = k;
}
static uint32_t AS(uint32_t k) { return k < argc_ ? as_[k] : N; }
static uint32_t AL(uint32_t k) { return k < argc_ ? ae_[k] - as_[k] : 0; }
static uint32_t find(uint32_t a, uint32_t n) {
    for (uint32_t f = 0; f < S; f += 3 + B[f] + B[f + 1])
        if (B[f] == n && !memcmp(B + f + 3, NEU + a, n * sizeof(cell))) return f;
    return UINT32_MAX;
}
static void remove_form(uint32_t f) {
    uint32_t n = 3 + B[f] + B[f + 1];
    memmove(B + f, B + f + n, (S + N - f - n) * sizeof(cell));
    S -= n;
}
static void close_call(void) {
    cell c = NEU[last];
    N = last;
    uint32_t d = c & ~TAG;
    last = d ? last - d : UINT32_MAX;
}
/* The value stands at the end of neutral, from v on. The call leaves, and the value goes to active or to neutral. */
static void finish(uint32_t v, int active) {
    uint32_t n = N - v;
    if (active) {
        A += n;
        memmove(B + W - A, NEU + v, n * sizeof(cell));
        close_call();
    } else {
        uint32_t at = last;
        close_call();
        memmove(NEU + at, NEU + v, n * sizeof(cell));
        N = at + n;
    }
}
typedef __int128 i128;
static const i128 LIM = (i128)(~(unsigned __int128)0 >> 1);
static int num(uint32_t a, uint32_t n, uint32_t *start, i128 *out) {
    uint32_t i = n;
    while (i && NEU[a + i - 1] >= '0' && NEU[a + i - 1] <= '9') i--;
    int neg = i && NEU[a + i - 1] == '-', sg = i && i < n && (neg || NEU[a + i - 1] == '+');
    if (i == n) {
        *start = n;
        *out = 0;
        return 1;
    }
    i128 v = 0;
    int ok = 1;
    for (uint32_t j = i; j < n && ok; j++)
        ok = !__builtin_mul_overflow(v, (i128)10, &v) && !__builtin_add_overflow(v, (i128)(NEU[a + j] - '0'), &v);
    *start = sg ? i - 1 : i;
    *out = neg && sg ? -v : v;
    return ok;
}
/* The digits at the end of a text, without leading zeros. */
static int bign(uint32_t a, uint32_t n, int *neg, uint32_t *ds, uint32_t *dn) {
    uint32_t i = n;
    while (i && NEU[a + i - 1] >= '0' && NEU[a + i - 1] <= '9') i--;
    *neg = i && i < n && NEU[a + i - 1] == '-';
    while (i < n && NEU[a + i] == '0') i++;
    *ds = a + i;
    *dn = n - i;
    if (!*dn) *neg = 0;
    return 0;
}
static uint32_t base_; /* the size before the step */
static void room(uint32_t built) {
    if (!need(base_ - 1 + built)) fin(1);
}
static void copy(uint32_t a, uint32_t n) {
    memmove(NEU + N, NEU + a, n * sizeof(cell));
    N += n;
}
static uint32_t code(uint32_t a, uint32_t n) {
    if (n != 2) return 0;
    cell x = NEU[a], y = NEU[a + 1];
    if (x > 255 || y > 255) return 0;
    if (x >= 'A' && x <= 'Z') x += 32;
    if (y >= 'A' && y <= 'Z') y += 32;
    return x << 8 | y;
}
#define C2(x, y) ((x) << 8 | (y))
static int mode;
static void value_at(uint32_t v, int forced) { finish(v, mode || forced); }
static void value_arg(uint32_t k, int forced) {
    room(AL(k));
    A--;
    uint32_t v = N;
    copy(AS(k), AL(k));
    value_at(v, forced);
}
static void null_value(void) {
    room(0);
    A--;
    close_call();
}
static int oct(uint32_t a, uint32_t n) {
    uint32_t i = n;
    while (i && NEU[a + i - 1] >= '0' && NEU[a + i - 1] <= '7') i--;
    return i;
}
static void perform(void) {
    args();
    mode = (NEU[last] & TAG) == CALL_A;
    base_ = S + N + A;
    uint32_t c = code(AS(0), AL(0)), v = N, f = UINT32_MAX;
    switch (c) {
    case C2('r', 's'): { /* base_ counts the parenthesis of the call, which has left */
        uint32_t n = 0;
        int ch;
        A--;
        uint32_t lim = FREE;
        for (;;) {
            ch = getchar_unlocked();
            if (ch == EOF || ch == meta) break;
            if (n == lim) fin(1);
            push(ch);
            n++;
        }
        need(base_ - 1 + n);
        if (ch == EOF && !n) {
            steps++;
            fin(0);
        }
        value_at(v, 0);
        return;
    }
    case C2('r', 'c'): {
        int ch = getchar_unlocked();
        if (ch == EOF) {
            room(0);
            steps++;
            fin(0);
        }
        room(1);
        A--;
        push(ch);
        value_at(v, 0);
        return;
    }
    case C2('c', 'm'):
        if (AL(1)) meta = NEU[AS(1)];
        null_value();
        return;
    case C2('p', 's'):
        room(0);
        for (uint32_t i = 0, a = AS(1), n = AL(1); i < n; i++) putchar_unlocked(NEU[a + i]);
        if (AL(1)) fflush(stdout);
        null_value();
        return;
    case C2('h', 'l'):
        room(0);
        steps++;
        fin(0);
        return;
    case C2('e', 'q'):
        value_arg(AL(1) == AL(2) && !memcmp(NEU + AS(1), NEU + AS(2), AL(1) * sizeof(cell)) ? 3 : 4, 0);
        return;
    case C2('g', 'r'): {
        int n1, n2;
        uint32_t d1, l1, d2, l2;
        bign(AS(1), AL(1), &n1, &d1, &l1);
        bign(AS(2), AL(2), &n2, &d2, &l2);
        int r;
        if (n1 != n2)
            r = n2;
        else {
            int m = l1 != l2 ? (l1 > l2 ? 1 : -1) : 0;
            for (uint32_t i = 0; !m && i < l1; i++)
                m = NEU[d1 + i] > NEU[d2 + i] ? 1 : NEU[d1 + i] < NEU[d2 + i] ? -1 : 0;
            r = n1 ? m < 0 : m > 0;
        }
        value_arg(r ? 3 : 4, 0);
        return;
    }
    case C2('a', 'd'):
    case C2('s', 'u'):
    case C2('m', 'l'):
    case C2('d', 'v'): {
        uint32_t s1, s2;
        i128 a, b, r = 0;
        int ok = num(AS(1), AL(1), &s1, &a) & num(AS(2), AL(2), &s2, &b);
        if (ok)
            ok = c == C2('a', 'd')   ? !__builtin_add_overflow(a, b, &r)
                 : c == C2('s', 'u') ? !__builtin_sub_overflow(a, b, &r)
                 : c == C2('m', 'l') ? !__builtin_mul_overflow(a, b, &r)
                                     : b != 0 && (r = a / b, 1);
        if (!ok || r < -LIM) {
            value_arg(3, 1);
            return;
        }
        char buf[48];
        int k = 48;
        unsigned __int128 u = r < 0 ? -(unsigned __int128)r : (unsigned __int128)r;
        do buf[--k] = '0' + (int)(u % 10), u /= 10;
        while (u);
        if (r < 0) buf[--k] = '-';
        room(s1 + 48 - k);
        A--;
        copy(AS(1), s1);
        while (k < 48) push(buf[k++]);
        value_at(v, 0);
        return;
    }
    case C2('d', 's'): {
        uint32_t n = AL(1), t = AL(2);
        room(3 + n + t);
        A--;
        f = find(AS(1), n);
        /* The form is built behind neutral, and then moved before it, to the end of the store. */
        push(n);
        push(t);
        push(0);
        copy(AS(1), n);
        copy(AS(2), t);
        uint32_t m = 3 + n + t, rest = last;
        cell link = NEU[last] & ~TAG;
        cell *tmp = malloc(m * sizeof(cell));
        memcpy(tmp, NEU + v, m * sizeof(cell));
        memmove(NEU + m, NEU, rest * sizeof(cell));
        memcpy(NEU, tmp, m * sizeof(cell));
        free(tmp);
        S += m;
        N = rest;
        last = link ? rest - link : UINT32_MAX;
        if (f != UINT32_MAX) remove_form(f);
        return;
    }
    case C2('s', 's'):
    case C2('c', 'l'):
    case C2('c', 's'):
    case C2('c', 'c'):
    case C2('c', 'n'):
    case C2('i', 'n'):
    case C2('c', 'r'):
    case C2('p', 'f'):
        f = find(AS(1), AL(1));
        if (f == UINT32_MAX) {
            null_value();
            return;
        }
        break;
    case C2('l', 'n'): {
        uint32_t n = 0;
        for (f = 0; f < S; f += 3 + B[f] + B[f + 1]) n += AL(1) + B[f];
        room(n);
        A--;
        for (f = 0; f < S; f += 3 + B[f] + B[f + 1]) {
            copy(AS(1), AL(1));
            memcpy(NEU + N, B + f + 3, B[f] * sizeof(cell));
            N += B[f];
        }
        value_at(v, 0);
        return;
    }
    case C2('d', 'd'):
        room(0);
        for (uint32_t k = 1; k < argc_; k++) {
            f = find(AS(k), AL(k));
            if (f != UINT32_MAX) remove_form(f);
        }
        null_value();
        return;
    case C2('d', 'a'):
        room(0);
        memmove(B, NEU, N * sizeof(cell));
        S = 0;
        null_value();
        return;
    case C2('b', 'u'):
    case C2('b', 'i'): {
        uint32_t s1 = oct(AS(1), AL(1)), s2 = oct(AS(2), AL(2)), n1 = AL(1) - s1, n2 = AL(2) - s2,
                 n = (c == C2('b', 'u')) == (n1 > n2) ? n1 : n2;
        room(s1 + n);
        A--;
        copy(AS(1), s1);
        for (uint32_t i = n; i--;) {
            cell x = i < n1 ? NEU[AS(1) + AL(1) - 1 - i] - '0' : 0, y = i < n2 ? NEU[AS(2) + AL(2) - 1 - i] - '0' : 0;
            push('0' + (c == C2('b', 'u') ? x | y : x & y));
        }
        value_at(v, 0);
        return;
    }
    case C2('b', 'c'): {
        uint32_t s1 = oct(AS(1), AL(1));
        room(AL(1));
        A--;
        copy(AS(1), s1);
        for (uint32_t i = s1; i < AL(1); i++) push('7' - NEU[AS(1) + i] + '0');
        value_at(v, 0);
        return;
    }
    case C2('b', 's'):
    case C2('b', 'r'): {
        uint32_t s2 = oct(AS(2), AL(2)), n = 3 * (AL(2) - s2);
        int neg;
        uint32_t ds, dl;
        bign(AS(1), AL(1), &neg, &ds, &dl);
        room(AL(2));
        A--;
        copy(AS(2), s2);
        int64_t d = 0;
        for (uint32_t i = 0; i < dl; i++) {
            d = d * 10 + (NEU[ds + i] - '0');
            if (c == C2('b', 'r') && n)
                d %= n;
            else if (d >= n) {
                d = n;
            }
        }
        if (neg) d = -d;
        for (uint32_t i = 0; i < n; i += 3) {
            int x = 0;
            for (int j = 0; j < 3; j++) {
                int64_t p = (int64_t)i + j + d;
                int bit;
                if (c == C2('b', 'r')) p = ((p % n) + n) % n;
                bit = p >= 0 && p < n ? (NEU[AS(2) + s2 + p / 3] - '0') >> (2 - p % 3) & 1 : 0;
                x = 2 * x + bit;
            }
            push('0' + x);
        }
        value_at(v, 0);
        return;
    }
    default:
        null_value();
        return;
    }
    cell *body = B + f + 3 + B[f];
    uint32_t len = B[f + 1], p = B[f + 2];
    switch (c) {
    case C2('c', 'r'):
        room(0);
        B[f + 2] = 0;
        null_value();
        return;
    case C2('s', 's'): {
        room(0);
        A--;
        uint32_t cut = 0;
        for (uint32_t k = 2; k < argc_; k++) {
            uint32_t n = AL(k), o = 0, i = 0;
            cell *x = NEU + AS(k);
            if (!n) continue;
            while (i < len)
                if (i + n <= len && !memcmp(body + i, x, n * sizeof(cell))) {
                    body[o++] = GAP | (k - 1);
                    i += n;
                } else
                    body[o++] = body[i++];
            cut += len - o;
            len = o;
        }
        B[f + 1] = len;
        B[f + 2] = 0;
        close_call();
        memmove(body + len, body + len + cut, (S + N - (body - B) - len - cut) * sizeof(cell));
        S -= cut;
        return;
    }
    case C2('c', 'l'): {
        uint32_t n = 0;
        for (uint32_t i = p; i < len; i++) n += body[i] & GAP ? AL(1 + (body[i] & ~GAP)) : 1;
        room(n);
        A--;
        for (uint32_t i = p; i < len; i++)
            if (body[i] & GAP)
                copy(AS(1 + (body[i] & ~GAP)), AL(1 + (body[i] & ~GAP)));
            else
                push(body[i]);
        value_at(v, 0);
        return;
    }
    case C2('c', 's'): {
        if (p == len) {
            value_arg(2, 1);
            return;
        }
        uint32_t i = p;
        while (i < len && !(body[i] & GAP)) i++;
        room(i - p);
        A--;
        memcpy(NEU + N, body + p, (i - p) * sizeof(cell));
        N += i - p;
        B[f + 2] = i < len ? i + 1 : i;
        value_at(v, 0);
        return;
    }
    case C2('i', 'n'): {
        uint32_t n = AL(2);
        if (!n) {
            null_value();
            return;
        }
        uint32_t i = p;
        cell *x = NEU + AS(2);
        while (i + n <= len && memcmp(body + i, x, n * sizeof(cell))) i++;
        if (i + n > len) {
            value_arg(3, 1);
            return;
        }
        uint32_t m = 0;
        for (uint32_t j = p; j < i; j++) m += !(body[j] & GAP);
        room(m);
        A--;
        for (uint32_t j = p; j < i; j++)
            if (!(body[j] & GAP)) push(body[j]);
        B[f + 2] = i + n;
        value_at(v, 0);
        return;
    }
    case C2('p', 'f'): {
        room(0);
        for (uint32_t i = 0; i <= len; i++) {
            if (i == p) fputs("<^>", stdout);
            if (i < len) {
                if (body[i] & GAP)
                    printf("<%u>", body[i] & ~GAP);
                else
                    putchar_unlocked(body[i]);
            }
        }
        fflush(stdout);
        null_value();
        return;
    }
    default: { /* cc and cn */
        int neg = 0;
        uint64_t d = 1;
        if (c == C2('c', 'n')) {
            uint32_t ds, dl;
            bign(AS(2), AL(2), &neg, &ds, &dl);
            d = 0;
            for (uint32_t i = 0; i < dl && d < UINT32_MAX; i++) d = d * 10 + (NEU[ds + i] - '0');
        }
        int z = c == C2('c', 'c') ? 2 : 3;
        if (!d) {
            null_value();
            return;
        }
        uint32_t i = p, m = 0;
        if (!neg) {
            while (i < len && m < d) m += !(body[i++] & GAP);
        } else
            while (i > 0 && m < d) m += !(body[--i] & GAP);
        if (!m) {
            value_arg(z, 1);
            return;
        }
        room(m);
        A--;
        if (!neg) {
            while (i > p && (body[i - 1] & GAP)) i--;
            for (uint32_t j = p; j < i; j++)
                if (!(body[j] & GAP)) push(body[j]);
        } else {
            while (i < p && (body[i] & GAP)) i++;
            for (uint32_t j = i; j < p; j++)
                if (!(body[j] & GAP)) push(body[j]);
        }
        B[f + 2] = i;
        value_at(v, 0);
        return;
    }
    }
}
int main(int argc, char **argv) {
    W = argc > 1 ? atoi(argv[1]) : 65536;
    allowance = argc > 2 ? strtoull(argv[2], 0, 10) : 1000000;
    B = calloc(W + 64, sizeof(cell));
    for (;; steps++) {
        if (steps == allowance) fin(3);
        if (!A) {
            if (!need(S + 11)) fin(1);
            N = 0;
            last = UINT32_MAX;
            static const char idle[] = "#(ps,#(rs))";
            A = 11;
            for (int i = 0; i < 11; i++) B[W - 11 + i] = idle[i];
            continue;
        }
        cell *a = B + W - A;
        cell c = a[0];
        if (c == ')' && last != UINT32_MAX) {
            perform();
            continue;
        }
        if (!need(S + N + A)) fin(1);
        switch (c) {
        case '\t':
        case '\n':
        case '\r':
            A--;
            break;
        case ')':
            A--;
            break;
        case ',':
            A--;
            if (last != UINT32_MAX) push(COMMA);
            break;
        case '(': {
            uint32_t d = 1, i = 1;
            for (; i < A; i++) {
                if (a[i] == '(')
                    d++;
                else if (a[i] == ')' && !--d)
                    break;
            }
            if (d) {
                A = 0;
                break;
            }
            memmove(NEU + N, a + 1, (i - 1) * sizeof(cell));
            N += i - 1;
            A -= i + 1;
            break;
        }
        case '#': {
            int n = A > 1 && a[1] == '(' ? 2 : A > 2 && a[1] == '#' && a[2] == '(' ? 3 : 1;
            A -= n;
            if (n == 1) {
                push('#');
                break;
            }
            uint32_t d = last == UINT32_MAX ? 0 : N - last;
            last = N;
            push((n == 2 ? CALL_A : CALL_N) | d);
            break;
        }
        default:
            A--;
            push(c);
        }
    }
}
