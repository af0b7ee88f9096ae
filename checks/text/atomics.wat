;; Atomic accesses of a shared memory.
(module
  (memory 1 8 shared)
  (func (param i32 i64)
    (drop (memory.atomic.notify offset=16 (local.get 0) (i32.const 1)))
    (drop (memory.atomic.wait32 (local.get 0) (i32.const 1) (i64.const -1)))
    (drop (memory.atomic.wait64 (local.get 0) (local.get 1) (i64.const 1000)))
    (atomic.fence)
    (i32.atomic.store offset=4 (local.get 0) (i32.atomic.load (local.get 0)))
    (i64.atomic.store32 (local.get 0) (i64.atomic.load8_u (local.get 0)))
    (drop (i32.atomic.rmw.add (local.get 0) (i32.const 1))) (drop (i64.atomic.rmw8.xor_u (local.get 0) (local.get 1)))
    (drop (i32.atomic.rmw16.xchg_u (local.get 0) (i32.const 1)))
    (drop (i64.atomic.rmw32.cmpxchg_u (local.get 0) (local.get 1) (i64.const 2)))))
