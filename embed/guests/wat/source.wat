;; Writes so many bytes of a text that repeats, in pieces, and then drops its end.
(module
  (import "canon" "stream<u8>.write" (func $write (param i32 i32 i32) (result i32)))
  (import "canon" "stream<u8>.drop-writable" (func $drop (param i32)))
  (import "canon" "waitable-set.new" (func $set_new (result i32)))
  (import "canon" "waitable.join" (func $join (param i32 i32)))
  (memory (export "memory") 2)
  (data (i32.const 0) "a count reported is a count moved\n")
  (global $out (mut i32) (i32.const 0))
  (global $set (mut i32) (i32.const 0))
  (global $left (mut i32) (i32.const 0))
  (global $at (mut i32) (i32.const 0))

  (func $moved (param $code i32)
    (local $count i32)
    (local.set $count (i32.shr_u (local.get $code) (i32.const 4)))
    (global.set $left
      (select
        (i32.const 0)
        (i32.sub (global.get $left) (local.get $count))
        (i32.eq (i32.and (local.get $code) (i32.const 15)) (i32.const 1))))
    (global.set $at (i32.rem_u (i32.add (global.get $at) (local.get $count)) (i32.const 34))))

  (func $piece (result i32)
    (select (global.get $left) (i32.const 65536) (i32.lt_u (global.get $left) (i32.const 65536))))

  (func $go_on (result i32)
    (local $code i32)
    (loop $more
      (if (global.get $left)
        (then
          (local.set $code (call $write (global.get $out) (global.get $at) (call $piece)))
          ;; It waits, and so does this function: for its set's next event.
          (if (i32.eq (local.get $code) (i32.const -1))
            (then (return (i32.or (i32.const 2) (i32.shl (global.get $set) (i32.const 4))))))
          (call $moved (local.get $code))
          (br $more))))
    (call $drop (global.get $out))
    (i32.const 0))

  ;; The text again and again, over a piece and a text more.
  (func $fill
    (local $to i32)
    (local.set $to (i32.const 34))
    (loop $more
      (i32.store8 (local.get $to) (i32.load8_u (i32.sub (local.get $to) (i32.const 34))))
      (local.set $to (i32.add (local.get $to) (i32.const 1)))
      (br_if $more (i32.lt_u (local.get $to) (i32.const 65570)))))

  (func (export "run") (param $in i32) (param $to i32) (param $size i32) (result i32)
    (global.set $out (local.get $to))
    (global.set $left (local.get $size))
    (call $fill)
    (global.set $set (call $set_new))
    (call $join (global.get $out) (global.get $set))
    (call $go_on))

  (func (export "callback") (param $event i32) (param $handle i32) (param $code i32) (result i32)
    (if (i32.eq (local.get $event) (i32.const 3)) (then (call $moved (local.get $code))))
    (call $go_on)))
