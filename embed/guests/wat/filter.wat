;; Reads pieces, makes their letters upper case, and writes them on.
(module
  (import "canon" "stream<u8>.read" (func $read (param i32 i32 i32) (result i32)))
  (import "canon" "stream<u8>.write" (func $write (param i32 i32 i32) (result i32)))
  (import "canon" "stream<u8>.cancel-read" (func $cancel_read (param i32) (result i32)))
  (import "canon" "stream<u8>.drop-readable" (func $drop_readable (param i32)))
  (import "canon" "stream<u8>.drop-writable" (func $drop_writable (param i32)))
  (import "canon" "waitable-set.new" (func $set_new (result i32)))
  (import "canon" "waitable.join" (func $join (param i32 i32)))
  ;; The piece lies at 0.
  (memory (export "memory") 1)
  (global $in (mut i32) (i32.const 0))
  (global $out (mut i32) (i32.const 0))
  (global $set (mut i32) (i32.const 0))
  (global $have (mut i32) (i32.const 0))
  (global $sent (mut i32) (i32.const 0))
  (global $reading (mut i32) (i32.const 0))
  (global $writing (mut i32) (i32.const 0))
  (global $ended (mut i32) (i32.const 0))

  (func $is_dropped (param $code i32) (result i32)
    (i32.eq (i32.and (local.get $code) (i32.const 15)) (i32.const 1)))

  (func $raise
    (local $at i32) (local $letter i32)
    (loop $more
      (if (i32.ge_u (local.get $at) (global.get $have)) (then (return)))
      (local.set $letter (i32.load8_u (local.get $at)))
      (if (i32.lt_u (i32.sub (local.get $letter) (i32.const 97)) (i32.const 26))
        (then (i32.store8 (local.get $at) (i32.sub (local.get $letter) (i32.const 32)))))
      (local.set $at (i32.add (local.get $at) (i32.const 1)))
      (br $more)))

  ;; What a read or its event tells. An end that has nothing under way is told too that the other is gone.
  (func $got (param $code i32)
    (if (i32.shr_u (local.get $code) (i32.const 4))
      (then
        (global.set $have (i32.shr_u (local.get $code) (i32.const 4)))
        (global.set $sent (i32.const 0))
        (call $raise)))
    (global.set $reading (i32.const 0))
    (global.set $ended (i32.or (global.get $ended) (call $is_dropped (local.get $code)))))

  ;; The same of a write: where nobody reads any more, there is no more to do.
  (func $gave (param $code i32)
    (global.set $writing (i32.const 0))
    (global.set $sent (i32.add (global.get $sent) (i32.shr_u (local.get $code) (i32.const 4))))
    (if (call $is_dropped (local.get $code))
      (then
        (global.set $have (global.get $sent))
        (global.set $ended (i32.const 1)))))

  ;; Each of the two is whether it goes on at once.
  (func $write_on (result i32)
    (local $code i32)
    (if (global.get $writing) (then (return (i32.const 0))))
    (local.set $code
      (call $write (global.get $out) (global.get $sent) (i32.sub (global.get $have) (global.get $sent))))
    (if (i32.eq (local.get $code) (i32.const -1))
      (then (global.set $writing (i32.const 1)))
      (else (call $gave (local.get $code))))
    (i32.const 1))

  (func $read_on (result i32)
    (local $code i32)
    (if (global.get $reading) (then (return (i32.const 0))))
    (local.set $code (call $read (global.get $in) (i32.const 0) (i32.const 65536)))
    (if (i32.eq (local.get $code) (i32.const -1))
      (then (global.set $reading (i32.const 1)))
      (else (call $got (local.get $code))))
    (i32.const 1))

  (func $go_on (result i32)
    (loop $more
      (if (i32.lt_u (global.get $sent) (global.get $have))
        (then (br_if $more (call $write_on)))
        (else
          (if (i32.eqz (global.get $ended))
            (then (br_if $more (call $read_on)))
            (else (return (call $finish)))))))
    (i32.or (i32.const 2) (i32.shl (global.get $set) (i32.const 4))))

  (func $finish (result i32)
    (if (global.get $reading) (then (drop (call $cancel_read (global.get $in)))))
    (call $drop_readable (global.get $in))
    (call $drop_writable (global.get $out))
    (i32.const 0))

  (func (export "run") (param $from i32) (param $to i32) (param $size i32) (result i32)
    (global.set $in (local.get $from))
    (global.set $out (local.get $to))
    (global.set $set (call $set_new))
    (call $join (global.get $in) (global.get $set))
    (call $join (global.get $out) (global.get $set))
    (call $go_on))

  (func (export "callback") (param $event i32) (param $handle i32) (param $code i32) (result i32)
    (if (i32.eq (local.get $event) (i32.const 2)) (then (call $got (local.get $code))))
    (if (i32.eq (local.get $event) (i32.const 3)) (then (call $gave (local.get $code))))
    (call $go_on)))
