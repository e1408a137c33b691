; The heap of packaging/c/heap.c, in LLVM: so that it answers as the module expects, whatever way C gives a struct back on a system.
; packaging/windows/make fills in the two names of the target.
target datalayout = ""
target triple = ""
@nothing = internal constant i8 0
declare ptr @malloc(i64)
declare ptr @realloc(ptr, i64)
declare void @free(ptr)
define internal { i64, i64 } @tried(ptr %p) alwaysinline {
  %ok = icmp ne ptr %p, null
  %first = zext i1 %ok to i64
  %place = select i1 %ok, ptr %p, ptr @nothing
  %second = ptrtoint ptr %place to i64
  %half = insertvalue { i64, i64 } poison, i64 %first, 0
  %both = insertvalue { i64, i64 } %half, i64 %second, 1
  ret { i64, i64 } %both
}
define { i64, i64 } @rattle_alloc(i64 %n, i64 %align) {
  %none = icmp eq i64 %n, 0
  %size = select i1 %none, i64 %align, i64 %n
  %p = call ptr @malloc(i64 %size)
  %r = call { i64, i64 } @tried(ptr %p)
  ret { i64, i64 } %r
}
define { i64, i64 } @rattle_realloc(ptr %old, i64 %kept, i64 %n, i64 %align) {
  %none = icmp eq i64 %n, 0
  %size = select i1 %none, i64 %align, i64 %n
  %p = call ptr @realloc(ptr %old, i64 %size)
  %r = call { i64, i64 } @tried(ptr %p)
  ret { i64, i64 } %r
}
define void @rattle_dealloc(ptr %p) {
  call void @free(ptr %p)
  ret void
}
