; Forms that clang rarely writes; the lowered text must print what this text prints.
%pair = type { i32, %deep }
%deep = type { [2 x i16], ptr }

@"a name" = private unnamed_addr constant [6 x i8] c"\22\FFab\\\00", align 1
@packed = internal global <{ i32, i16, i16, i64 }> <{ i32 1, i16 -2, i16 3, i64 4 }>, section "other", align 8
@pairs = dso_local global [2 x %pair] [%pair { i32 7, %deep { [2 x i16] [i16 1, i16 2], ptr @packed } }, %pair zeroinitializer]
@inside = global ptr getelementptr inbounds ([2 x %pair], ptr @pairs, i64 0, i64 1, i32 0)
@partly = global { i8, [7 x i8], i64 } { i8 1, [7 x i8] undef, i64 5 }

declare void @print_i64(i64 noundef)
declare i64 @llvm.uadd.sat.i64(i64, i64)
declare i64 @llvm.usub.sat.i64(i64, i64)
declare i32 @llvm.ucmp.i32.i64(i64, i64)
declare i32 @llvm.scmp.i32.i64(i64, i64)
declare i64 @llvm.smax.i64(i64, i64)
declare i64 @llvm.umin.i64(i64, i64)
declare i32 @llvm.fshr.i32(i32, i32, i32)
declare i8 @llvm.ctpop.i8(i8)
declare i64 @llvm.expect.i64(i64, i64)
declare void @llvm.memcpy.p0.p0.i32(ptr, ptr, i32, i1)

define internal fastcc i64 @"of two"(i64 noundef %0, i64 %"second one", i64 %1) unnamed_addr #0 {
  %3 = call i64 @llvm.uadd.sat.i64(i64 %0, i64 %"second one")
  %4 = call i64 @llvm.usub.sat.i64(i64 %0, i64 %"second one")
  %5 = call i32 @llvm.ucmp.i32.i64(i64 %0, i64 %"second one")
  %6 = call i32 @llvm.scmp.i32.i64(i64 %0, i64 %"second one")
  %7 = call i64 @llvm.smax.i64(i64 %0, i64 %"second one")
  %8 = call i64 @llvm.umin.i64(i64 %0, i64 %"second one")
  %9 = trunc i64 %0 to i32
  %10 = call i32 @llvm.fshr.i32(i32 %9, i32 %5, i32 3)
  %11 = trunc i64 %0 to i8
  %12 = call i8 @llvm.ctpop.i8(i8 %11)
  %13 = freeze i64 %3
  call void @print_i64(i64 %13)
  call void @print_i64(i64 %4)
  %14 = sext i32 %5 to i64
  %15 = sext i32 %6 to i64
  call void @print_i64(i64 %14)
  call void @print_i64(i64 %15)
  call void @print_i64(i64 %7)
  call void @print_i64(i64 %8)
  %16 = zext i32 %10 to i64
  %17 = zext nneg i8 %12 to i64
  call void @print_i64(i64 %16)
  call void @print_i64(i64 %17)
  %18 = call i64 @llvm.expect.i64(i64 %17, i64 1)
  switch i64 %18, label %20 [
    i64 0, label %19
    i64 1, label %19
    i64 64, label %20
  ]

19:
  br label %20

20:
  %21 = phi i64 [ %18, %2 ], [ -1, %19 ], [ %18, %2 ]
  ret i64 %21
}

define dso_local i32 @main(i32 %0, ptr %1) #0 {
  %room = alloca i8, i32 16, align 8
  call void @llvm.memcpy.p0.p0.i32(ptr align 8 %room, ptr align 8 @packed, i32 16, i1 false)
  %version = getelementptr inbounds <{ i32, i16, i16, i64 }>, ptr %room, i64 0, i32 1
  %a = load i16, ptr %version, align 4
  %b = sext i16 %a to i64
  tail call void @print_i64(i64 noundef %b)
  %c = call fastcc i64 @"of two"(i64 -1, i64 2, i64 undef)
  call void @print_i64(i64 %c)
  %d = call fastcc i64 @"of two"(i64 256, i64 9223372036854775808, i64 0)
  call void @print_i64(i64 %d)
  %e = load i8, ptr getelementptr inbounds ([6 x i8], ptr @"a name", i64 0, i64 1), align 1
  %f = zext i8 %e to i64
  call void @print_i64(i64 %f)
  %g = load ptr, ptr @inside, align 8
  %h = ptrtoint ptr %g to i64
  %i = sub nsw i64 %h, ptrtoint (ptr @pairs to i64)
  call void @print_i64(i64 %i)
  %j = load i64, ptr getelementptr inbounds ({ i8, [7 x i8], i64 }, ptr @partly, i64 0, i32 2), align 8
  call void @print_i64(i64 %j)
  %k = load ptr, ptr getelementptr (i8, ptr @pairs, i64 16), align 8
  %l = icmp eq ptr %k, @packed
  %m = select i1 %l, i64 add (i64 ptrtoint (ptr @pairs to i64), i64 5), i64 0
  %n = sub i64 %m, ptrtoint (ptr @pairs to i64)
  call void @print_i64(i64 %n)
  ret i32 0
}

attributes #0 = { nounwind "frame-pointer"="all" }
