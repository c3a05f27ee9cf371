@p = global i64 0, section ".pm"
declare void @llvm.x86.clwb(ptr)
declare void @llvm.x86.sse.sfence()
define void @note(ptr %t) {
entry:
  store i64 1, ptr %t
  ret void
}
define void @work(ptr %d, ptr %t) {
entry:
  call void @note(ptr %t)
  store i64 2, ptr %d
  ret void
}
define i32 @main() {
entry:
  %a = alloca i64
  call void @work(ptr %a, ptr %a)
  call void @work.pm(ptr @p, ptr %a)
  call void @llvm.x86.sse.sfence()
  ret i32 0
}
define void @work.pm(ptr %d, ptr %t) {
entry:
  call void @note.pm(ptr %t)
  store i64 2, ptr %d
  call void @llvm.x86.clwb(ptr %d)
  ret void
}
define void @note.pm(ptr %t) {
entry:
  store i64 1, ptr %t
  call void @llvm.x86.clwb(ptr %t)
  ret void
}
