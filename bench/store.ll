; The loop of flush.ll without its flush and its fence. The number of turns is the input.
@x = global i64 0, section ".pm"
declare i64 @read_i64()
define i32 @main() {
entry:
  %n = call i64 @read_i64()
  br label %loop
loop:
  %i = phi i64 [ 0, %entry ], [ %j, %loop ]
  store i64 %i, ptr @x
  %j = add i64 %i, 1
  %c = icmp ult i64 %j, %n
  br i1 %c, label %loop, label %done
done:
  ret i32 0
}
