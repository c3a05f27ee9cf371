; Five calls and three stores a turn, into volatile memory. The number of turns is the input.
@a = global [8 x i64] zeroinitializer
declare i64 @read_i64()
define i64 @put(i64 %i) {
entry:
  %k = and i64 %i, 7
  %p = getelementptr [8 x i64], ptr @a, i64 0, i64 %k
  store i64 %i, ptr %p
  ret i64 %k
}
define i64 @twice(i64 %i) {
entry:
  %d = add i64 %i, %i
  ret i64 %d
}
define i32 @main() {
entry:
  %n = call i64 @read_i64()
  br label %loop
loop:
  %i = phi i64 [ 0, %entry ], [ %j, %loop ]
  %b = call i64 @put(i64 %i)
  %e = call i64 @twice(i64 %b)
  %f = call i64 @put(i64 %e)
  %g = call i64 @twice(i64 %f)
  %h = call i64 @put(i64 %g)
  %j = add i64 %i, 1
  %c = icmp ult i64 %j, %n
  br i1 %c, label %loop, label %done
done:
  ret i32 0
}
