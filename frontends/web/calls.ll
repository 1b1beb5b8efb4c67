; std's heap hands back a flag and a pointer in two registers, as C on x86-64 does. C on WebAssembly writes them to memory.
target datalayout = "e-m:e-p:64:64-p10:8:8-p20:8:8-i64:64-i128:128-n32:64-S128-ni:1:10:20"
target triple = "wasm64-unknown-unknown"

declare void @try_alloc(ptr, i64, i64)
declare void @try_realloc(ptr, ptr, i64, i64, i64)

define { i64, i64 } @rattle_alloc(i64 %count, i64 %alignment) {
  %answer = alloca { i64, i64 }, align 8
  call void @try_alloc(ptr %answer, i64 %count, i64 %alignment)
  %both = load { i64, i64 }, ptr %answer
  ret { i64, i64 } %both
}

define { i64, i64 } @rattle_realloc(ptr %bytes, i64 %kept, i64 %count, i64 %alignment) {
  %answer = alloca { i64, i64 }, align 8
  call void @try_realloc(ptr %answer, ptr %bytes, i64 %kept, i64 %count, i64 %alignment)
  %both = load { i64, i64 }, ptr %answer
  ret { i64, i64 } %both
}
