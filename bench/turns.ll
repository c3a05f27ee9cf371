; Arithmetic alone, four steps a turn. The number of turns is the input.
declare i64 @read_i64()
define i32 @main() {
entry:
  %n = call i64 @read_i64()
  br label %loop
loop:
  %i = phi i64 [ 0, %entry ], [ %j, %loop ]
  %x = phi i64 [ 1, %entry ], [ %y, %loop ]
  %y = mul i64 %x, 6364136223846793005
  %j = add i64 %i, 1
  %c = icmp ult i64 %j, %n
  br i1 %c, label %loop, label %done
done:
  ret i32 0
}
