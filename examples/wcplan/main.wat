;; A main module: it exports the function `print` of its world, and uses `my:notes/store` and two functions of the adapter
;; `old-notes`.
(module
  (import "my:notes/store@1.2.0" "[constructor]note" (func $note (param i32 i32) (result i32)))
  (import "my:notes/store@1.2.0" "[method]note.text" (func $text (param i32 i32)))
  (import "my:notes/store@1.2.0" "[resource-drop]note" (func $drop (param i32)))
  (import "old-notes" "length_of" (func $length_of (param i32 i32) (result i32)))
  (memory (export "memory") 1)
  (global $free (mut i32) (i32.const 1024))

  ;; Each request gets new memory: nothing is freed, copied or grown.
  (func $realloc (export "cabi_realloc")
    (param $old i32) (param $old_size i32) (param $align i32) (param $size i32) (result i32)
    (local $start i32)
    global.get $free
    local.get $align
    i32.add
    i32.const 1
    i32.sub
    i32.const 0
    local.get $align
    i32.sub
    i32.and
    local.tee $start
    local.get $size
    i32.add
    global.set $free
    local.get $start)

  ;; print: func(title: string). The note's text is put at 0, if the adapter knows its length.
  (func (export "print") (param $title i32) (param $size i32)
    (local $note i32)
    local.get $title
    local.get $size
    call $length_of
    i32.eqz
    if
      return
    end
    local.get $title
    local.get $size
    call $note
    local.tee $note
    i32.const 0
    call $text
    local.get $note
    call $drop))
