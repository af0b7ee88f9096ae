;; An adapter: it offers `length_of` and `read_text`, as the main module knows them, by the functions of `my:notes/store`, and
;; the function `is-ready` of its world. It runs on the memory of the main module, and passes on its realloc.
(module
  (import "env" "memory" (memory 0))
  (import "__main_module__" "cabi_realloc" (func $realloc (param i32 i32 i32 i32) (result i32)))
  (import "my:notes/store@1.2.0" "[constructor]note" (func $note (param i32 i32) (result i32)))
  (import "my:notes/store@1.2.0" "summarize" (func $summarize (param i32 i32)))
  (import "my:notes/store@1.2.0" "[resource-drop]note" (func $drop (param i32)))
  (import "my:notes/store@1.2.0" "[method]note.text" (func $text (param i32 i32)))

  ;; Where results of imports are put.
  (func (export "cabi_import_realloc")
    (param $old i32) (param $old_size i32) (param $align i32) (param $size i32) (result i32)
    local.get $old
    local.get $old_size
    local.get $align
    local.get $size
    call $realloc)

  ;; The length of the note of this title: of its summary, which has 12 bytes, the last four.
  (func (export "length_of") (param $title i32) (param $size i32) (result i32)
    (local $note i32) (local $summary i32)
    i32.const 0
    i32.const 0
    i32.const 4
    i32.const 12
    call $realloc
    local.set $summary
    local.get $title
    local.get $size
    call $note
    local.tee $note
    local.get $summary
    call $summarize
    local.get $note
    call $drop
    local.get $summary
    i32.load offset=8)

  ;; The text of a note, put at 0. The main module doesn't import it.
  (func (export "read_text") (param $note i32)
    local.get $note
    i32.const 0
    call $text)

  ;; is-ready: func() -> bool
  (func (export "is-ready") (result i32)
    i32.const 1))
