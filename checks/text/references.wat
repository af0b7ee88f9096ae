;; Typed function references as wabt 1.0.32 has them: by the codes of a draft, 6b and 6c in place of 64 and 63, and with a
;; `call_ref` that names no type. The final codes are read here; these are refused.
(module
  (type $step (func (result i32)))
  (func (param (ref $step)) (result i32) (call_ref (local.get 0))))
