@p = global i64 0, section ".pm"
define void @copy(ptr %dst, ptr %src) {
entry:
  %v = load i64, ptr %src
  store i64 %v, ptr %dst
  ret void
}
define i32 @main() {
entry:
  %a = alloca i64
  %b = alloca i64
  store i64 9, ptr %a
  call void @copy(ptr %b, ptr %a)
  call void @copy(ptr @p, ptr %b)
  ret i32 0
}
