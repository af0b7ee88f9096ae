;; What is left of `adapter.wat`: `length_of`, `is-ready` and `cabi_import_realloc`, and what they reach.
(module
  (import "env" "memory" (memory 0))
  (import "__main_module__" "cabi_realloc" (func $realloc (param i32 i32 i32 i32) (result i32)))
  (import "my:notes/store@1.2.0" "[constructor]note" (func $note (param i32 i32) (result i32)))
  (import "my:notes/store@1.2.0" "summarize" (func $summarize (param i32 i32)))
  (import "my:notes/store@1.2.0" "[resource-drop]note" (func $drop (param i32)))

  ;; Where results of imports are put.
  (func (export "cabi_import_realloc")
    (param $old i32) (param $old_size i32) (param $align i32) (param $size i32) (result i32)
    local.get $old
    local.get $old_size
    local.get $align
    local.get $size
    call $realloc)

  ;; The length of the note of this title: of its summary, which has 12 bytes, the last four.
  (func (export "length_of") (param $title i32) (param $size i32) (result i32)
    (local $note i32) (local $summary i32)
    i32.const 0
    i32.const 0
    i32.const 4
    i32.const 12
    call $realloc
    local.set $summary
    local.get $title
    local.get $size
    call $note
    local.tee $note
    local.get $summary
    call $summarize
    local.get $note
    call $drop
    local.get $summary
    i32.load offset=8)

  ;; is-ready: func() -> bool
  (func (export "is-ready") (result i32)
    i32.const 1))
