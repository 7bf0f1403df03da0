; The heap of heap.c under the names and the form that the compiled libraries call: each tells whether there was memory, and where it is.
target datalayout = "e-m:e-p:64:64-p10:8:8-p20:8:8-i64:64-i128:128-n32:64-S128-ni:1:10:20"
target triple = "wasm64-unknown-unknown"

declare ptr @heap_take(i64)
declare ptr @heap_resize(ptr, i64)
declare void @heap_give(ptr)

; where there was none, the place is any that isn't 0
define internal { i64, i64 } @told(ptr %block) {
  %at = ptrtoint ptr %block to i64
  %lacks = icmp eq i64 %at, 0
  %had = select i1 %lacks, i64 0, i64 1
  %place = select i1 %lacks, i64 16, i64 %at
  %half = insertvalue { i64, i64 } undef, i64 %had, 0
  %whole = insertvalue { i64, i64 } %half, i64 %place, 1
  ret { i64, i64 } %whole
}

define { i64, i64 } @rattle_alloc(i64 %size, i64 %align) {
  %block = call ptr @heap_take(i64 %size)
  %told = call { i64, i64 } @told(ptr %block)
  ret { i64, i64 } %told
}

define { i64, i64 } @rattle_realloc(ptr %block, i64 %kept, i64 %size, i64 %align) {
  %larger = call ptr @heap_resize(ptr %block, i64 %size)
  %told = call { i64, i64 } @told(ptr %larger)
  ret { i64, i64 } %told
}

define void @rattle_dealloc(ptr %block) {
  call void @heap_give(ptr %block)
  ret void
}
