;; Constant expressions that calculate.
(module
  (import "host" "base" (global $base i32))
  (import "host" "wide" (global $wide i64))
  (memory 1)
  (table 8 funcref)
  (global i32 (i32.add (global.get $base) (i32.const 16)))
  (global i64 (i64.mul (i64.sub (global.get $wide) (i64.const 3)) (i64.const -7)))
  (global (mut i32) (i32.mul (i32.const 3) (i32.sub (i32.const 10) (global.get $base))))
  (data (offset (i32.add (global.get $base) (i32.const 1))) "x")
  (elem (offset (i32.sub (global.get $base) (i32.const 1))) func $f)
  (func $f))
