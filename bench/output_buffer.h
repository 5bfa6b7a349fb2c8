// Output by hand: the digits above the last four at once and the others two at a time, into a buffer of 64 KiB, written when it is nearly full.
// What is handed on is the place of the next byte, so that it stays in a register.

#include <unistd.h>

// Numbers of up to seven digits: the largest variable is 1,198,081 (RULES V6). The longest clause has 258 numbers.
enum { BUFFER = 65536, MOST_CLAUSE = 260 * 9, HEADS = 120 };

typedef char *Out;

static char buffer[BUFFER];

// 00, 01 .. 99
static const char pairs[] =
    "0001020304050607080910111213141516171819202122232425262728293031323334353637383940414243444546474849"
    "5051525354555657585960616263646566676869707172737475767778798081828384858687888990919293949596979899";

// 0, 1 .. 119
static struct { char text[3]; unsigned char length; } heads[HEADS];

static inline Out two_digits(Out out, unsigned value) {
  memcpy(out, pairs + 2 * value, 2);
  return out + 2;
}

// one or two digits, without a leading zero
static inline Out first_digits(Out out, unsigned value) {
  if (value >= 10) return two_digits(out, value);
  *out = (char)('0' + value);
  return out + 1;
}

static __attribute__((noinline)) Out short_decimal(Out out, unsigned value) { // below 10,000
  return value < 100 ? first_digits(out, value) : two_digits(first_digits(out, value / 100), value % 100);
}

static inline Out decimal(Out out, unsigned value) {
  if (value < 10000) return short_decimal(out, value);
  unsigned first = value / 10000, rest = value % 10000;
  memcpy(out, &heads[first], 4); // what stands behind the text is written over
  return two_digits(two_digits(out + heads[first].length, rest / 100), rest % 100);
}

static inline Out put(Out out, int number) {
  *out = '-';
  out = decimal(out + (number < 0), (unsigned)abs(number));
  *out = ' ';
  return out + 1;
}

static void write_out(const char *from, const char *to) {
  while (from < to) {
    ssize_t written = write(1, from, (size_t)(to - from));
    if (written <= 0) exit(1);
    from += written;
  }
}

static inline Out end(Out out) {
  memcpy(out, "0\n", 2);
  out += 2;
  if (out > buffer + BUFFER - MOST_CLAUSE) {
    write_out(buffer, out);
    out = buffer;
  }
  return out;
}

static Out open_output(void) {
  for (unsigned first = 0; first < HEADS; first++) {
    char text[12];
    heads[first].length = (unsigned char)sprintf(text, "%u", first);
    memcpy(heads[first].text, text, 3);
  }
  return buffer;
}

static Out header(Out out, int variables, int clauses) { return out + sprintf(out, "p cnf %d %d\n", variables, clauses); }

static void close_output(Out out) { write_out(buffer, out); }
