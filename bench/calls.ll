; A loop of calls of a function that adds, five steps a turn. The number of turns is the input.
declare i64 @read_i64()
define i64 @next(i64 %i) {
entry:
  %j = add i64 %i, 1
  ret i64 %j
}
define i32 @main() {
entry:
  %n = call i64 @read_i64()
  br label %loop
loop:
  %i = phi i64 [ 0, %entry ], [ %j, %loop ]
  %j = call i64 @next(i64 %i)
  %c = icmp ult i64 %j, %n
  br i1 %c, label %loop, label %done
done:
  ret i32 0
}
