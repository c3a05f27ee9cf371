@x = global i64 0, section ".pm"
define i32 @main() {
entry:
  store i64 5, ptr @x
  ret i32 0
}
