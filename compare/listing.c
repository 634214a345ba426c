/* The listing of channel records in plain C, by the same rules as chantab: what chantab's time is held against.
   `listing` prints by printf; `listing digits` writes its own digits, which is as quick as plain C gets. */
#include <inttypes.h>
#include <stdbool.h>
#include <stdint.h>
#include <stdio.h>
#include <string.h>

enum { RECORD = 32, UNIFORM = 1, PEAK = 2 };

typedef struct { int layer, number, place; } fault;

typedef struct {
    int kind;
    unsigned precision;
    int64_t min, max; /* of a uniform channel 0 and the range less 1 */
    double centre, scale;
} channel;

static bool own_digits;

static int32_t read_i32(const uint8_t *bytes)
{
    return (int32_t)((uint32_t)bytes[0] | (uint32_t)bytes[1] << 8 | (uint32_t)bytes[2] << 16 | (uint32_t)bytes[3] << 24);
}

static double read_f64(const uint8_t *bytes)
{
    uint64_t bits = 0;
    double x;
    for (int i = 7; i >= 0; i--) bits = bits << 8 | bytes[i];
    memcpy(&x, &bits, sizeof x);
    return x;
}

/* The lowest byte that the form forbids, or -1. */
static int malformed(const uint8_t *record)
{
    if (record[0] != UNIFORM && record[0] != PEAK) return 0;
    for (int i = 2; i < RECORD; i++) {
        bool blank = i < 4 || (i >= 12 && i < 16) || (record[0] == UNIFORM && (i < 8 || i >= 16));
        if (blank && record[i] != 0) return i;
    }
    return -1;
}

static fault check(const channel *c)
{
    const double far = 1099511627776.0;
    if (c->precision == 0 || c->precision > 32) return (fault){2, 1, 0};
    if (c->kind == UNIFORM) {
        bool lawful = c->max >= 1 && c->max < INT64_C(1) << c->precision;
        return lawful ? (fault){0, 0, 0} : (fault){2, 7, 0};
    }
    if (c->max <= c->min) return (fault){2, 2, 0};
    if (c->max - c->min >= INT64_C(1) << c->precision) return (fault){2, 3, 0};
    if (!(c->centre >= -far && c->centre <= far && c->scale >= 1.0 / 1048576.0 && c->scale <= far)) return (fault){3, 5, 0};
    return (fault){0, 0, 0};
}

static fault read_record(const uint8_t *record, size_t length, channel *c)
{
    if (length < RECORD) return (fault){1, 8, (int)length};
    int place = malformed(record);
    if (place >= 0) return (fault){1, 8, place};
    c->kind = record[0];
    c->precision = record[1];
    c->min = read_i32(record + 4);
    c->max = read_i32(record + 8);
    c->centre = read_f64(record + 16);
    static const uint8_t zeros[8];
    c->scale = memcmp(record + 24, zeros, 8) == 0 ? 16.0 : read_f64(record + 24);
    return check(c);
}

static double height(const channel *c, double x)
{
    double z = (x - c->centre) / c->scale;
    return z < 0.0 ? 0.5 / (1.0 + -z) : 1.0 - 0.5 / (1.0 + z);
}

static char *put_number(char *end, uint64_t n)
{
    do {
        *--end = (char)('0' + n % 10);
        n /= 10;
    } while (n != 0);
    return end;
}

static void print_row(int64_t symbol, uint64_t start, uint64_t length)
{
    if (!own_digits) {
        printf("%" PRId64 " %" PRIu64 " %" PRIu64 "\n", symbol, start, length);
        return;
    }
    char line[64], *end = line + sizeof line, *p = end;
    *--p = '\n';
    p = put_number(p, length);
    *--p = ' ';
    p = put_number(p, start);
    *--p = ' ';
    p = put_number(p, symbol < 0 ? 0 - (uint64_t)symbol : (uint64_t)symbol);
    if (symbol < 0) *--p = '-';
    fwrite(p, 1, (size_t)(end - p), stdout);
}

static void print_uniform(const channel *c)
{
    uint64_t whole = UINT64_C(1) << c->precision, range = (uint64_t)c->max + 1, each = whole / range;
    for (uint64_t k = 0; k < range; k++) print_row((int64_t)k, k * each, k + 1 < range ? each : whole - k * each);
}

static void print_peak(const channel *c)
{
    uint64_t whole = UINT64_C(1) << c->precision, span = (uint64_t)(c->max - c->min), start = 0;
    double weight = (double)(whole - 1 - span);
    for (uint64_t i = 0; i <= span; i++) {
        int64_t symbol = c->min + (int64_t)i;
        uint64_t next = i == span ? whole : (uint64_t)(weight * height(c, (double)(symbol + 1) - 0.5)) + i + 1;
        print_row(symbol, start, next - start);
        start = next;
    }
}

int main(int argc, char **argv)
{
    static char in[1 << 16], out[1 << 16];
    uint8_t record[RECORD];
    size_t length;
    own_digits = argc > 1 && strcmp(argv[1], "digits") == 0;
    setvbuf(stdin, in, _IOFBF, sizeof in);
    setvbuf(stdout, out, _IOFBF, sizeof out);
    for (uint32_t n = 0; (length = fread(record, 1, RECORD, stdin)) > 0; n++) {
        channel c;
        fault f = read_record(record, length, &c);
        if (f.number != 0) {
            printf("channel %" PRIu32 " refused %d %d %d\n", n, f.layer, f.number, f.place);
            continue;
        }
        printf("channel %" PRIu32 "\n", n);
        if (c.kind == UNIFORM) print_uniform(&c);
        else print_peak(&c);
    }
    return ferror(stdin) || fflush(stdout) != 0;
}
