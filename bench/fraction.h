// Fractions of 126 bits over __int128, with the numbers that an operation forms tested as crates/pa_frac tests them.
#pragma once
#include <algorithm>
#include <cstdint>
#include <cstdio>
#include <vector>
#include <string>
#include <iostream>
#include <sstream>
typedef __int128 i128; typedef unsigned __int128 u128; typedef uint64_t u64;
static const u128 LIMIT = (u128)1 << 126; static const u128 HALF = (u128)1 << 63;
static inline u128 mag(i128 a) { return a < 0 ? -(u128)a : (u128)a; }
static inline int tz(u64 a) { return __builtin_ctzll(a); }
static inline int tz(u128 a) { return (u64)a ? tz((u64)a) : 64 + tz((u64)(a >> 64)); }
static u64 gcd64(u64 a, u64 b) {
  if (!a) return b; if (!b) return a;
  int t = std::min(tz(a), tz(b)); u64 x = a, y = b >> tz(b);
  while (x) { u64 o = x >> tz(x); x = o > y ? o - y : y - o; y = std::min(o, y); }
  return y << t;
}
static u128 gcd128(u128 a, u128 b) {
  if (!(a >> 64) && !(b >> 64)) return gcd64((u64)a, (u64)b);
  if (!(b >> 64)) return b ? gcd64((u64)b, (u64)(a % b)) : a;
  if (!(a >> 64)) return a ? gcd64((u64)a, (u64)(b % a)) : b;
  int t = std::min(tz(a), tz(b)); u128 x = a, y = b >> tz(b);
  while (x) {
    if (!(x >> 64) && !(y >> 64)) { return (u128)gcd64((u64)x, (u64)y) << t; }
    u128 o = x >> tz(x); x = o > y ? o - y : y - o; y = std::min(o, y);
  }
  return y << t;
}
struct F { i128 num, den; };
static inline i128 quo(i128 a, i128 b) { return b == 1 ? a : a / b; }
struct P { i128 g, l, r; };
static inline P split(i128 a, i128 b) { if (b == 1) return {1, a, 1}; i128 g = (i128)gcd128(mag(a), mag(b)); return {g, quo(a, g), quo(b, g)}; }
static inline bool times(i128 a, i128 b, i128 &r) {
  if (mag(a) < HALF && mag(b) < HALF) { r = a * b; return true; }
  return !__builtin_mul_overflow(a, b, &r) && mag(r) < LIMIT;
}
static bool add(F a, F b, F &r) {
  if (a.den == b.den) { P s = split(a.num + b.num, a.den); if (mag(s.l) >= LIMIT) return false; r = {s.l, s.r}; return true; }
  P d = split(a.den, b.den); i128 l, m, n;
  if (!times(a.num, d.r, l) || !times(b.num, d.l, m) || !times(a.den, d.r, n)) return false;
  P s = split(l + m, d.g); if (mag(s.l) >= LIMIT) return false; r = {s.l, quo(n, s.g)}; return true;
}
static bool mul(F a, F b, F &r) { P l = split(a.num, b.den), m = split(b.num, a.den); return times(l.l, m.l, r.num) && times(m.r, l.r, r.den); }
static bool divide(F a, F b, F &r) { return mul(a, b.num < 0 ? F{-b.den, -b.num} : F{b.den, b.num}, r); }
static u64 next(u64 s) { u64 a = s ^ (s << 13), b = a ^ (a >> 7); return b ^ (b << 17); }
