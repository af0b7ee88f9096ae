;; What is left of the adapter for `size_of`, for a main module with `cabi_realloc`: written by hand after docs/MODEL.md
;; ("Trimmed adapters"). Functions and types that trimming adds are last. `wat2wasm trimmed.wat` makes the bytes that
;; `wctrim trim` writes.
(module
  (type (func (param i32 i32 i32 i32) (result i32)))
  (type (func (param i32 i32) (result i32)))
  (type (func (param i32 i32)))
  (type (func (param i32)))
  (type $growing (func (param i32 i32 i32 i32) (result i32)))
  (type $start (func))
  (import "env" "memory" (memory 0))
  (import "__main_module__" "cabi_realloc" (func $realloc (type 0)))
  (import "my:demo/store" "open" (func $open (type 1)))
  (import "my:demo/store" "[method]file.entry" (func $entry (type 2)))
  (import "my:demo/store" "[resource-drop]file" (func $drop (type 3)))
  (global $__stack_pointer (mut i32) (i32.const 0))
  (export "size_of" (func $size_of))
  (start $allocate_stack)

  (func $size_of (type 1) (param $path i32) (param $length i32) (result i32)
    (local $frame i32) (local $file i32)
    global.get $__stack_pointer
    i32.const 16
    i32.sub
    local.tee $frame
    global.set $__stack_pointer
    local.get $path
    local.get $length
    call $copy
    local.get $length
    call $open
    local.tee $file
    local.get $frame
    call $entry
    local.get $file
    call $drop
    local.get $frame
    i32.const 16
    i32.add
    global.set $__stack_pointer
    local.get $frame
    i32.load offset=8)

  (func $copy (type 1) (param $text i32) (param $length i32) (result i32)
    (local $copied i32)
    i32.const 0
    i32.const 0
    i32.const 1
    local.get $length
    call $realloc
    local.tee $copied
    local.get $text
    local.get $length
    memory.copy
    local.get $copied)

  ;; A realloc that grows the memory by 65536 bytes, and traps on any request but one for a new stack.
  (func $grow (type $growing)
    (param $old i32) (param $old_size i32) (param $align i32) (param $size i32) (result i32)
    (local $pages i32)
    i32.const 0
    local.get $old
    i32.ne
    if
      unreachable
    end
    i32.const 0
    local.get $old_size
    i32.ne
    if
      unreachable
    end
    i32.const 65536
    local.get $size
    i32.ne
    if
      unreachable
    end
    i32.const 1
    memory.grow
    local.tee $pages
    i32.const -1
    i32.eq
    if
      unreachable
    end
    local.get $pages
    i32.const 16
    i32.shl)

  ;; The stack pointer is the end of the new memory.
  (func $allocate_stack (type $start)
    i32.const 0
    i32.const 0
    i32.const 8
    i32.const 65536
    call $grow
    i32.const 65536
    i32.add
    global.set $__stack_pointer))
