; A million turns of arithmetic, a load, a store and a call; both hippo and LLVM run this text.
@tab = global [1024 x i64] zeroinitializer
define i64 @mix(i64 %a, i64 %b) {
entry:
  %m = mul i64 %a, 6364136223846793005
  %s = add i64 %m, %b
  %x = lshr i64 %s, 29
  %r = xor i64 %s, %x
  ret i64 %r
}
define i32 @main() {
entry:
  br label %loop
loop:
  %i = phi i64 [ 0, %entry ], [ %j, %loop ]
  %h = phi i64 [ 1, %entry ], [ %k, %loop ]
  %ix = and i64 %h, 1023
  %p = getelementptr [1024 x i64], ptr @tab, i64 0, i64 %ix
  %v = load i64, ptr %p
  %k = call i64 @mix(i64 %h, i64 %v)
  store i64 %k, ptr %p
  %j = add i64 %i, 1
  %c = icmp ult i64 %j, 1000000
  br i1 %c, label %loop, label %done
done:
  %t = trunc i64 %h to i32
  %u = and i32 %t, 127
  ret i32 %u
}
