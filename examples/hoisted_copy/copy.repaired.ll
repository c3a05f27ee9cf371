@p = global i64 0, section ".pm"
declare void @llvm.x86.clwb(ptr)
declare void @llvm.x86.sse.sfence()
define void @copy(ptr %dst, ptr %src) {
entry:
  %v = load i64, ptr %src
  store i64 %v, ptr %dst
  ret void
}
define i32 @main() {
entry:
  %a = alloca i64
  %b = alloca i64
  store i64 9, ptr %a
  call void @copy(ptr %b, ptr %a)
  call void @copy.pm(ptr @p, ptr %b)
  call void @llvm.x86.sse.sfence()
  ret i32 0
}
define void @copy.pm(ptr %dst, ptr %src) {
entry:
  %v = load i64, ptr %src
  store i64 %v, ptr %dst
  call void @llvm.x86.clwb(ptr %dst)
  ret void
}
