// The sums and products of program.txt in C, with unsigned __int128 and the same algorithms.
#include <stdbool.h>
#include <stdint.h>
#include <stdio.h>
#include <time.h>

typedef unsigned __int128 u128;
typedef __int128 i128;
typedef struct { i128 num, den; } rat;

#define LIMIT (((u128)1 << 127) - 1)
#define OPERANDS 64

static uint64_t next(uint64_t state) {
    uint64_t a = state ^ (state << 13), b = a ^ (a >> 7);
    return b ^ (b << 17);
}

static u128 number(uint64_t high, uint64_t low, int bits) {
    return ((((u128)high << 64) | low) >> 1) >> (127 - bits);
}

static int trailing_zeros(u128 n) {
    uint64_t low = (uint64_t)n;
    return low ? __builtin_ctzll(low) : 64 + __builtin_ctzll((uint64_t)(n >> 64));
}

static uint64_t odd_gcd_64(uint64_t a, uint64_t b) {
    while (a != b) {
        uint64_t low = a < b ? a : b, difference = (a < b ? b : a) - low;
        a = low;
        b = difference >> __builtin_ctzll(difference);
    }
    return a;
}

static u128 gcd(u128 a, u128 b) {
    if (!a) return b;
    if (!b) return a;
    if (a == 1 || b == 1) return 1;
    int first = trailing_zeros(a), second = trailing_zeros(b);
    a >>= first;
    b >>= second;
    while (a != b) {
        u128 low = a < b ? a : b, high = a < b ? b : a;
        if (!(high >> 64)) {
            a = odd_gcd_64((uint64_t)low, (uint64_t)high);
            break;
        }
        a = low;
        b = (high - low) >> trailing_zeros(high - low);
    }
    return a << (first < second ? first : second);
}

static u128 magnitude(i128 n) { return n < 0 ? -(u128)n : (u128)n; }

static bool product(u128 a, u128 b, u128 *answer) {
    return !__builtin_mul_overflow(a, b, answer) && *answer <= LIMIT;
}

static bool multiple(i128 a, u128 b, i128 *answer) {
    u128 size;
    if (!product(magnitude(a), b, &size)) return false;
    *answer = a < 0 ? -(i128)size : (i128)size;
    return true;
}

static bool add(rat a, rat b, rat *answer) {
    u128 shared = gcd(a.den, b.den), den;
    i128 first, second, num;
    if (!multiple(a.num, (u128)b.den / shared, &first)) return false;
    if (!multiple(b.num, (u128)a.den / shared, &second)) return false;
    if (__builtin_add_overflow(first, second, &num) || magnitude(num) > LIMIT) return false;
    u128 divisor = gcd(magnitude(num), shared);
    if (!product((u128)a.den / divisor, (u128)b.den / shared, &den)) return false;
    answer->num = num / (i128)divisor;
    answer->den = (i128)den;
    return true;
}

static bool mul(rat a, rat b, rat *answer) {
    u128 first = gcd(magnitude(a.num), b.den), second = gcd(magnitude(b.num), a.den), num, den;
    if (!product(magnitude(a.num) / first, magnitude(b.num) / second, &num)) return false;
    if (!product((u128)a.den / second, (u128)b.den / first, &den)) return false;
    answer->num = (a.num < 0) != (b.num < 0) ? -(i128)num : (i128)num;
    answer->den = (i128)den;
    return true;
}

static double micros(void) {
    struct timespec time;
    clock_gettime(CLOCK_PROCESS_CPUTIME_ID, &time);
    return time.tv_sec * 1e6 + time.tv_nsec / 1e3;
}

static void arithmetic(const char *name, bool sums, int bits) {
    rat operands[OPERANDS];
    uint64_t state = 88172645463325252u, fitting = 0;
    for (int i = 0; i < OPERANDS; i++) {
        uint64_t a = next(state), b = next(a), c = next(b);
        state = next(c);
        u128 num = number(a, b, bits), den = number(c, state, bits);
        if (!den) { num = 1; den = 1; }
        u128 shared = gcd(num, den);
        operands[i] = (rat){(i128)(num / shared), (i128)(den / shared)};
    }
    double start = micros();
    for (int round = 0; round < 100; round++)
        for (int i = 0; i < OPERANDS; i++)
            for (int j = 0; j < OPERANDS; j++) {
                rat answer;
                fitting += sums ? add(operands[i], operands[j], &answer) : mul(operands[i], operands[j], &answer);
                __asm__ volatile("" : : "m"(answer));
            }
    printf("%s %d %.0f %llu\n", name, bits, micros() - start, (unsigned long long)fitting);
}

int main(void) {
    int widths[] = {8, 32, 64, 100, 126};
    for (int i = 0; i < 5; i++) {
        arithmetic("sum", true, widths[i]);
        arithmetic("product", false, widths[i]);
    }
}
