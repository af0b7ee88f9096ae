;; Exceptions and tags, which the format read here does not have.
(module
  (tag $thrown (param i32))
  (func (throw $thrown (i32.const 1)))
  (func (result i32) (try (result i32) (do (i32.const 0)) (catch $thrown)))
  (export "thrown" (tag $thrown)))
