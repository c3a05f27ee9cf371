@p = global i64 0, section ".pm"
define void @note(ptr %t) {
entry:
  store i64 1, ptr %t
  ret void
}
define void @work(ptr %d, ptr %t) {
entry:
  call void @note(ptr %t)
  store i64 2, ptr %d
  ret void
}
define i32 @main() {
entry:
  %a = alloca i64
  call void @work(ptr %a, ptr %a)
  call void @work(ptr @p, ptr %a)
  ret i32 0
}
