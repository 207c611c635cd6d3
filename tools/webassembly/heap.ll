; The heap that the kit's library libc declares (libc/src/heap.rt), over malloc, realloc and free of
; the module's host. As in the kit's liblibc_c.a a request for 0 bytes asks for one alignment, and
; the result is a flag, whether memory was given, and an address.
target datalayout = "e-m:e-p:64:64-p10:8:8-p20:8:8-i64:64-i128:128-n32:64-S128-ni:1:10:20"
target triple = "wasm64-unknown-unknown"

declare i64 @malloc(i64) #0
declare i64 @realloc(i64, i64) #1
declare void @free(i64) #2

define { i64, i64 } @rattle_alloc(i64 %bytes, i64 %alignment) {
  %wanted = call i64 @at_least_one(i64 %bytes, i64 %alignment)
  %address = call i64 @malloc(i64 %wanted)
  %result = call { i64, i64 } @result_of(i64 %address)
  ret { i64, i64 } %result
}

define { i64, i64 } @rattle_realloc(ptr %old, i64 %kept, i64 %bytes, i64 %alignment) {
  %wanted = call i64 @at_least_one(i64 %bytes, i64 %alignment)
  %old_address = ptrtoint ptr %old to i64
  %address = call i64 @realloc(i64 %old_address, i64 %wanted)
  %result = call { i64, i64 } @result_of(i64 %address)
  ret { i64, i64 } %result
}

define void @rattle_dealloc(ptr %old) {
  %address = ptrtoint ptr %old to i64
  call void @free(i64 %address)
  ret void
}

define internal i64 @at_least_one(i64 %bytes, i64 %alignment) {
  %is_none = icmp eq i64 %bytes, 0
  %wanted = select i1 %is_none, i64 %alignment, i64 %bytes
  ret i64 %wanted
}

; Without memory the address is any that isn't 0.
define internal { i64, i64 } @result_of(i64 %address) {
  %is_given = icmp ne i64 %address, 0
  %flag = zext i1 %is_given to i64
  %not_zero = select i1 %is_given, i64 %address, i64 16
  %half = insertvalue { i64, i64 } poison, i64 %flag, 0
  %result = insertvalue { i64, i64 } %half, i64 %not_zero, 1
  ret { i64, i64 } %result
}

attributes #0 = { "wasm-import-module"="host" "wasm-import-name"="malloc" }
attributes #1 = { "wasm-import-module"="host" "wasm-import-name"="realloc" }
attributes #2 = { "wasm-import-module"="host" "wasm-import-name"="free" }
