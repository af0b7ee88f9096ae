;; Calls in tail position.
(module
  (type $step (func (param i32 i64) (result i64)))
  (table funcref (elem $down $ended))
  (func $down (param i32 i64) (result i64)
    (if (i32.eqz (local.get 0)) (then (return_call $ended (local.get 0) (local.get 1))))
    (return_call_indirect (type $step) (i32.sub (local.get 0) (i32.const 1)) (local.get 1) (i32.const 0)))
  (func $ended (param i32 i64) (result i64) (local.get 1))
  (export "down" (func $down)))
