;; It is refused twice, an end and a set that it has not, catches what is thrown each time, and comes back.
(module
  (import "canon" "stream<u8>.drop-readable" (func $drop (param i32)))
  (import "canon" "waitable-set.drop" (func $drop_set (param i32)))
  (memory (export "memory") 1)
  (global $caught (mut i32) (i32.const 0))
  (func $count (global.set $caught (i32.add (global.get $caught) (i32.const 1))))
  (func (export "run") (param i32 i32 i32) (result i32)
    (try (do (call $drop (i32.const 7))) (catch_all (call $count)))
    (try (do (call $drop_set (i32.const 7))) (catch_all (call $count)))
    (i32.const 0))
  (func (export "callback") (param i32 i32 i32) (result i32) (i32.const 0))
  (func (export "caught") (result i32) (global.get $caught)))
