;; A main module: it exports `my:demo/names`, and uses `my:demo/store` and a function of the adapter `old-files`.
(module
  (import "my:demo/store" "open" (func $open (param i32 i32) (result i32)))
  (import "my:demo/store" "[method]file.size" (func $size (param i32) (result i32)))
  (import "my:demo/store" "[resource-drop]file" (func $drop (param i32)))
  (import "old-files" "size_of" (func $size_of (param i32 i32) (result i32)))
  (memory (export "memory") 2)
  (global $free (mut i32) (i32.const 1024))

  ;; Each request gets new memory: nothing is freed, copied or grown.
  (func $realloc (export "cabi_realloc")
    (param $old i32) (param $old_size i32) (param $align i32) (param $size i32) (result i32)
    (local $start i32)
    global.get $free
    local.get $align
    i32.add
    i32.const 1
    i32.sub
    i32.const 0
    local.get $align
    i32.sub
    i32.and
    local.tee $start
    local.get $size
    i32.add
    global.set $free
    local.get $start)

  ;; describe: func(path: string) -> entry. The size is asked of the adapter.
  (func (export "my:demo/names#describe") (param $path i32) (param $length i32) (result i32)
    (local $entry i32)
    i32.const 0
    i32.const 0
    i32.const 4
    i32.const 12
    call $realloc
    local.tee $entry
    local.get $path
    i32.store
    local.get $entry
    local.get $length
    i32.store offset=4
    local.get $entry
    local.get $path
    local.get $length
    call $size_of
    i32.store offset=8
    local.get $entry)

  ;; size: func(path: string) -> u32. The file is opened, asked for its size, and dropped.
  (func (export "my:demo/names#size") (param $path i32) (param $length i32) (result i32)
    (local $file i32)
    local.get $path
    local.get $length
    call $open
    local.tee $file
    call $size
    local.get $file
    call $drop))
