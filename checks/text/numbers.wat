;; Constants at the edges of their bytes, each access of memory, each conversion.
(module
  (memory 1)
  (func (result i32)
    i32.const 0 drop i32.const 63 drop i32.const 64 drop i32.const -64 drop i32.const -65 drop i32.const 8191 drop
    i32.const 8192 drop i32.const -8193 drop i32.const 1048576 drop i32.const 134217727 drop i32.const 134217728 drop
    i32.const 2147483647 drop i32.const -2147483648 drop i64.const 9223372036854775807 drop i64.const -9223372036854775808 drop
    i64.const 4294967296 drop i64.const -1 drop f32.const nan drop f32.const inf drop f32.const 0x1.fffffep127 drop
    f64.const -nan:0x1 drop f64.const -0 drop f64.const 0x1p-1074 drop i32.const -1)
  (func (param i32)
    (i32.store (local.get 0) (i32.load (local.get 0)))
    (i64.store offset=127 align=1 (local.get 0) (i64.load offset=128 align=2 (local.get 0)))
    (f32.store offset=16383 (local.get 0) (f32.load offset=16384 (local.get 0)))
    (f64.store offset=4294967295 (local.get 0) (f64.load offset=2147483648 (local.get 0)))
    (i32.store8 (local.get 0) (i32.load8_s (local.get 0))) (i32.store16 (local.get 0) (i32.load16_u (local.get 0)))
    (i32.store8 (local.get 0) (i32.load8_u (local.get 0))) (i32.store16 (local.get 0) (i32.load16_s (local.get 0)))
    (i64.store8 (local.get 0) (i64.load8_s (local.get 0))) (i64.store16 (local.get 0) (i64.load16_u (local.get 0)))
    (i64.store8 (local.get 0) (i64.load8_u (local.get 0))) (i64.store16 (local.get 0) (i64.load16_s (local.get 0)))
    (i64.store32 (local.get 0) (i64.load32_u (local.get 0))) (i64.store32 (local.get 0) (i64.load32_s (local.get 0)))
    (drop (memory.grow (memory.size))))
  (func (param i32 i64 f32 f64)
    (drop (i32.clz (i32.ctz (i32.popcnt (local.get 0))))) (drop (i64.clz (i64.ctz (i64.popcnt (local.get 1)))))
    (drop (i32.rotl (i32.rotr (i32.shl (i32.shr_s (i32.shr_u (local.get 0) (i32.const 1)) (i32.const 2)) (i32.const 3)) (i32.const 4)) (i32.const 5)))
    (drop (i32.div_s (i32.div_u (i32.rem_s (i32.rem_u (local.get 0) (i32.const 1)) (i32.const 2)) (i32.const 3)) (i32.const 4)))
    (drop (f32.copysign (f32.nearest (f32.sqrt (f32.trunc (f32.floor (f32.ceil (f32.neg (f32.abs (local.get 2)))))))) (f32.const 1)))
    (drop (f64.min (f64.max (f64.copysign (f64.nearest (local.get 3)) (f64.const 1)) (f64.const 2)) (f64.const 3)))
    (drop (i32.wrap_i64 (local.get 1))) (drop (i64.extend_i32_s (local.get 0))) (drop (i64.extend_i32_u (local.get 0)))
    (drop (i32.trunc_f32_s (local.get 2))) (drop (i64.trunc_f64_u (local.get 3))) (drop (f32.demote_f64 (local.get 3)))
    (drop (f64.promote_f32 (local.get 2))) (drop (i32.reinterpret_f32 (local.get 2))) (drop (f64.reinterpret_i64 (local.get 1)))
    (drop (i32.trunc_sat_f32_s (local.get 2))) (drop (i64.trunc_sat_f64_u (local.get 3)))
    (drop (i32.extend8_s (i32.extend16_s (local.get 0)))) (drop (i64.extend8_s (i64.extend16_s (i64.extend32_s (local.get 1)))))))
