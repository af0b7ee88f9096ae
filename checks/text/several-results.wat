;; Functions and blocks of several results.
(module
  (type $pair (func (param i32 i64) (result i64 i32)))
  (func $turned (type $pair) (local.get 1) (local.get 0))
  (func (export "turned") (param i32 i64) (result i64 i32)
    (local.get 0) (local.get 1)
    (block (type $pair) (call $turned)))
  (func (export "six") (result i32 i64 f32 f64 funcref externref)
    (i32.const 1) (i64.const 2) (f32.const 3) (f64.const 4) (ref.null func) (ref.null extern)))
