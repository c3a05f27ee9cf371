@balance = global i64 100, section ".pm", align 64
@owner = global i64 1, section ".pm", align 64
declare i64 @read_i64()
define i32 @main() {
entry:
  %what = call i64 @read_i64()
  %number = call i64 @read_i64()
  %pays = icmp eq i64 %what, 0
  br i1 %pays, label %pay, label %move
pay:
  %old = load i64, ptr @balance
  %new = add i64 %old, %number
  store i64 %new, ptr @balance
  ret i32 0
move:
  store i64 %number, ptr @owner
  ret i32 0
}
