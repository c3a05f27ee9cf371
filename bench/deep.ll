; Calls 16,000 deep, six steps a call. The number of descents is the input.
declare i64 @read_i64()
define i64 @down(i64 %n) {
entry:
  %z = icmp eq i64 %n, 0
  br i1 %z, label %done, label %more
more:
  %m = sub i64 %n, 1
  %r = call i64 @down(i64 %m)
  %s = add i64 %r, 1
  ret i64 %s
done:
  ret i64 0
}
define i32 @main() {
entry:
  %n = call i64 @read_i64()
  br label %loop
loop:
  %i = phi i64 [ 0, %entry ], [ %j, %loop ]
  %d = call i64 @down(i64 16000)
  %j = add i64 %i, 1
  %c = icmp ult i64 %j, %n
  br i1 %c, label %loop, label %end
end:
  ret i32 0
}
