// Vectors of 128 bits.
#include <stddef.h>
#include <wasm_simd128.h>

v128_t constant(void) { return wasm_i64x2_const(0x0123456789abcdefll, -1); }
v128_t shuffled(v128_t a, v128_t b) { return wasm_i8x16_shuffle(a, b, 0, 17, 2, 19, 4, 21, 6, 23, 8, 25, 10, 27, 12, 29, 14, 31); }
v128_t picked(v128_t a, v128_t b) { return wasm_i8x16_swizzle(a, b); }
int lane(v128_t a) { return wasm_i8x16_extract_lane(a, 7) + wasm_u16x8_extract_lane(a, 3) + wasm_i32x4_extract_lane(a, 2); }
v128_t with_lane(v128_t a, double x) { return wasm_f64x2_replace_lane(a, 1, x); }
v128_t spread(const void *at) { return wasm_i32x4_add(wasm_v128_load32_splat(at), wasm_u32x4_load16x4(at)); }
v128_t zeroed(const void *at) { return wasm_v128_or(wasm_v128_load32_zero(at), wasm_v128_load64_zero(at)); }
v128_t one_loaded(const void *at, v128_t a) { return wasm_v128_load16_lane(at, a, 5); }
void one_stored(void *at, v128_t a) { wasm_v128_store64_lane(at, a, 1); }
v128_t dot(v128_t a, v128_t b) { return wasm_i32x4_dot_i16x8(a, b); }
v128_t rounded(v128_t a) { return wasm_f32x4_nearest(wasm_f32x4_convert_i32x4(a)); }
v128_t narrowed(v128_t a, v128_t b) { return wasm_u8x16_narrow_i16x8(a, b); }
v128_t chosen(v128_t a, v128_t b, v128_t m) { return wasm_v128_bitselect(a, b, m); }
int any(v128_t a) { return wasm_v128_any_true(a) + wasm_i16x8_bitmask(a) + wasm_i64x2_all_true(a); }
v128_t popcount(v128_t a) { return wasm_i8x16_popcnt(a); }
v128_t saturated(v128_t a, v128_t b) { return wasm_i16x8_q15mulr_sat(wasm_i16x8_add_sat(a, b), b); }
v128_t demoted(v128_t a) { return wasm_f32x4_demote_f64x2_zero(a); }

float total(const float *from, size_t count) {
    v128_t sums = wasm_f32x4_splat(0);
    for (; count >= 4; count -= 4, from += 4) sums = wasm_f32x4_add(sums, wasm_v128_load(from));
    float it = wasm_f32x4_extract_lane(sums, 0) + wasm_f32x4_extract_lane(sums, 1) + wasm_f32x4_extract_lane(sums, 2) + wasm_f32x4_extract_lane(sums, 3);
    while (count--) it += *from++;
    return it;
}
