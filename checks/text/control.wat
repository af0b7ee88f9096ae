;; Blocks of each kind and type, branches, tables of labels, unreachable code.
(module
  (type $two (func (param i32 i32) (result i32 i32)))
  (type $none (func))
  (func $swapped (type $two) (local.get 1) (local.get 0))
  (func $nested (param i32) (result i32)
    (block $a (result i32)
      (block $b
        (block $c
          (loop $again
            (br_if $c (i32.eqz (local.get 0)))
            (local.set 0 (i32.sub (local.get 0) (i32.const 1)))
            (br_if $again (i32.gt_u (local.get 0) (i32.const 100)))
            (br_table $b $c $again $b $c (local.get 0))))
        (br $a (i32.const 7)))
      (i32.const -64)))
  (func $several (param i32) (result i32)
    (local.get 0) (i32.const 2)
    (block (type $two) (call $swapped))
    (local.get 0)
    (if (type $two) (then (drop) (i32.const 64)) (else (drop) (i32.const -65)))
    (drop))
  (func $empties (block) (loop) (if (i32.const 0) (then)) (if (i32.const 1) (then nop) (else nop)) (block (type $none)))
  (func $deep
    (block (block (block (block (block (block (block (block (block (block (block (block (br 12))))))))))))))
  (func $unreached (result i64) (return (i64.const 0)) (unreachable) (i64.add) (drop) (br 0))
  (func $selected (param f32 f32 i32) (result f32) (select (local.get 0) (local.get 1) (local.get 2)))
  (func $typed (param externref externref i32) (result externref)
    (select (result externref) (local.get 0) (local.get 1) (local.get 2)))
  (func $many_locals (local i32 i32 i64 i64 f32 f64 i32 v128 funcref externref) (local.set 6 (i32.const 1)))
  (func $one_label (br_table 0 (i32.const 0)))
  (table funcref (elem $empties $deep $one_label))
  (func $indirect (call_indirect (type $none) (i32.const 1))))
