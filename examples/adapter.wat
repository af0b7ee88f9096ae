;; An adapter: it offers `size_of` and `remove_file`, as the main module knows them, by the functions of `my:demo/store`.
;; It runs on the memory of the main module. Its stack pointer is 0 until there is a stack, which trimming adds.
(module
  (import "env" "memory" (memory 0))
  (import "__main_module__" "cabi_realloc" (func $realloc (param i32 i32 i32 i32) (result i32)))
  (import "my:demo/store" "open" (func $open (param i32 i32) (result i32)))
  (import "my:demo/store" "[method]file.entry" (func $entry (param i32 i32)))
  (import "my:demo/store" "[resource-drop]file" (func $drop (param i32)))
  (import "my:demo/store" "remove" (func $remove (param i32 i32) (result i32)))
  (global $__stack_pointer (mut i32) (i32.const 0))
  (global $removed (mut i32) (i32.const 0))

  ;; The size of the file of this path.
  (func (export "size_of") (param $path i32) (param $length i32) (result i32)
    (local $frame i32) (local $file i32)
    ;; 16 bytes on the stack, for an entry: where its name is, how long that is, and its size.
    global.get $__stack_pointer
    i32.const 16
    i32.sub
    local.tee $frame
    global.set $__stack_pointer
    local.get $path
    local.get $length
    call $copy
    local.get $length
    call $open
    local.tee $file
    local.get $frame
    call $entry
    local.get $file
    call $drop
    local.get $frame
    i32.const 16
    i32.add
    global.set $__stack_pointer
    local.get $frame
    i32.load offset=8)

  ;; Removes the file of this path, and counts it.
  (func (export "remove_file") (param $path i32) (param $length i32) (result i32)
    call $count
    local.get $path
    local.get $length
    call $remove)

  ;; A copy of a text, in memory of the main module's realloc.
  (func $copy (param $text i32) (param $length i32) (result i32)
    (local $copied i32)
    i32.const 0
    i32.const 0
    i32.const 1
    local.get $length
    call $realloc
    local.tee $copied
    local.get $text
    local.get $length
    memory.copy
    local.get $copied)

  (func $count
    global.get $removed
    i32.const 1
    i32.add
    global.set $removed)

  (func (export "removed") (result i32)
    global.get $removed))
