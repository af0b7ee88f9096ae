;; Relaxed vectors.
(module
  (func (param v128 v128 v128) (result v128)
    (drop (i8x16.relaxed_swizzle (local.get 0) (local.get 1)))
    (drop (i32x4.relaxed_trunc_f32x4_s (local.get 0)))
    (drop (f32x4.relaxed_min (local.get 0) (local.get 1)))
    (drop (i8x16.relaxed_laneselect (local.get 0) (local.get 1) (local.get 2)))
    (drop (i16x8.relaxed_q15mulr_s (local.get 0) (local.get 1)))
    (f64x2.relaxed_nmadd (local.get 0) (local.get 1) (local.get 2))))
