;; Reads pieces until the writer is gone, and keeps their number, a hash of all bytes, and the first of them.
(module
  (import "canon" "stream<u8>.read" (func $read (param i32 i32 i32) (result i32)))
  (import "canon" "stream<u8>.drop-readable" (func $drop (param i32)))
  (import "canon" "waitable-set.new" (func $set_new (result i32)))
  (import "canon" "waitable.join" (func $join (param i32 i32)))
  ;; The piece lies at 0, and the first 4,096 bytes at 65,536.
  (memory (export "memory") 2)
  (global $in (mut i32) (i32.const 0))
  (global $set (mut i32) (i32.const 0))
  (global $total (mut i32) (i32.const 0))
  (global $hash (mut i32) (i32.const 0))
  (global $ended (mut i32) (i32.const 0))

  (func $keep (param $byte i32)
    (if (i32.lt_u (global.get $total) (i32.const 4096))
      (then (i32.store8 offset=65536 (global.get $total) (local.get $byte))))
    (global.set $hash (i32.add (i32.mul (global.get $hash) (i32.const 31)) (local.get $byte)))
    (global.set $total (i32.add (global.get $total) (i32.const 1))))

  (func $got (param $code i32)
    (local $at i32)
    (block $done
      (loop $more
        (br_if $done (i32.ge_u (local.get $at) (i32.shr_u (local.get $code) (i32.const 4))))
        (call $keep (i32.load8_u (local.get $at)))
        (local.set $at (i32.add (local.get $at) (i32.const 1)))
        (br $more)))
    (global.set $ended (i32.eq (i32.and (local.get $code) (i32.const 15)) (i32.const 1))))

  (func $go_on (result i32)
    (local $code i32)
    (loop $more
      (if (i32.eqz (global.get $ended))
        (then
          (local.set $code (call $read (global.get $in) (i32.const 0) (i32.const 65536)))
          (if (i32.eq (local.get $code) (i32.const -1))
            (then (return (i32.or (i32.const 2) (i32.shl (global.get $set) (i32.const 4))))))
          (call $got (local.get $code))
          (br $more))))
    (call $drop (global.get $in))
    (i32.const 0))

  (func (export "run") (param $from i32) (param $to i32) (param $size i32) (result i32)
    (global.set $in (local.get $from))
    (global.set $set (call $set_new))
    (call $join (global.get $in) (global.get $set))
    (call $go_on))

  (func (export "callback") (param $event i32) (param $handle i32) (param $code i32) (result i32)
    (if (i32.eq (local.get $event) (i32.const 2)) (then (call $got (local.get $code))))
    (call $go_on))

  (func (export "total") (result i32) (global.get $total))
  (func (export "hash") (result i32) (global.get $hash))
  (func (export "first") (result i32) (i32.const 65536)))
