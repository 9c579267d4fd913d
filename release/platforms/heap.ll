; What the proved library takes from outside: memory, over malloc, realloc and free. Text of LLVM and not C, so that both
; words of an answer lie in the registers in which the library's code looks for them: C of Windows hands a struct of 16 bytes
; back by a hidden pointer. clang takes the target from its words.
@none = internal global [16 x i8] zeroinitializer, align 16

declare ptr @malloc(i64) nounwind
declare ptr @realloc(ptr, i64) nounwind
declare void @free(ptr) nounwind

define { i64, i64 } @rattle_alloc(i64 %size, i64 %align) nounwind uwtable {
  %is_empty = icmp eq i64 %size, 0
  %bytes = select i1 %is_empty, i64 %align, i64 %size
  %at = call ptr @malloc(i64 %bytes)
  %answer = call { i64, i64 } @tried(ptr %at)
  ret { i64, i64 } %answer
}

define { i64, i64 } @rattle_realloc(ptr %old, i64 %kept, i64 %size, i64 %align) nounwind uwtable {
  %is_empty = icmp eq i64 %size, 0
  %bytes = select i1 %is_empty, i64 %align, i64 %size
  %at = call ptr @realloc(ptr %old, i64 %bytes)
  %answer = call { i64, i64 } @tried(ptr %at)
  ret { i64, i64 } %answer
}

define void @rattle_dealloc(ptr %at) nounwind uwtable {
  call void @free(ptr %at)
  ret void
}

; For a program whose own free is not that of the library, as beside a DLL.
define void @pest_meta_free(ptr %at) nounwind uwtable {
  call void @free(ptr %at)
  ret void
}

define internal { i64, i64 } @tried(ptr %at) nounwind alwaysinline {
  %is_refused = icmp eq ptr %at, null
  %place = select i1 %is_refused, ptr @none, ptr %at
  %ok = select i1 %is_refused, i64 0, i64 1
  %word = ptrtoint ptr %place to i64
  %first = insertvalue { i64, i64 } undef, i64 %ok, 0
  %both = insertvalue { i64, i64 } %first, i64 %word, 1
  ret { i64, i64 } %both
}
