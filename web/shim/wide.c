/* Arithmetic with 128 bits: clang calls these functions, which a C library's runtime would have. */
typedef unsigned long word;
typedef unsigned __int128 wide;

union halves {
  wide whole;
  struct {
    word low, high;
  } part;
};

static word low_of(wide value) { return (union halves){value}.part.low; }
static word high_of(wide value) { return (union halves){value}.part.high; }
static wide joined(word high, word low) { return (union halves){.part = {low, high}}.whole; }

/* The whole product of two words, by their halves of 32 bits. */
static wide product(word a, word b) {
  const word mask = 0xffffffffu;
  word a0 = a & mask, a1 = a >> 32, b0 = b & mask, b1 = b >> 32;
  word lowest = a0 * b0;
  word middle = a1 * b0 + (lowest >> 32);
  word other = a0 * b1 + (middle & mask);
  return joined(a1 * b1 + (middle >> 32) + (other >> 32), (other << 32) | (lowest & mask));
}

wide __multi3(wide a, wide b) {
  wide lowest = product(low_of(a), low_of(b));
  word high = high_of(lowest) + high_of(a) * low_of(b) + low_of(a) * high_of(b);
  return joined(high, low_of(lowest));
}

wide __ashlti3(wide value, int places) {
  if (places == 0) return value;
  word low = low_of(value);
  if (places >= 64) return joined(low << (places - 64), 0);
  return joined((high_of(value) << places) | (low >> (64 - places)), low << places);
}

wide __lshrti3(wide value, int places) {
  if (places == 0) return value;
  word high = high_of(value);
  if (places >= 64) return joined(0, high >> (places - 64));
  return joined(high >> places, (low_of(value) >> places) | (high << (64 - places)));
}

/* The quotient by long division, bit by bit. A zero divisor doesn't occur: the program checks it first. */
wide __udivti3(wide dividend, wide divisor) {
  wide quotient = 0, remainder = 0;
  for (int place = 127; place >= 0; place--) {
    remainder = __ashlti3(remainder, 1) | (low_of(__lshrti3(dividend, place)) & 1);
    if (remainder >= divisor) {
      remainder -= divisor;
      quotient |= __ashlti3(1, place);
    }
  }
  return quotient;
}
