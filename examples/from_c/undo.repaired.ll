@balances = global [8 x i64] [i64 100, i64 100, i64 100, i64 100, i64 100, i64 100, i64 100, i64 100], section ".pm", align 64
@undo = global { i64, [56 x i8], [8 x { i64, i64 }] } zeroinitializer, section ".pm", align 64
declare i64 @read_i64()
declare void @print_i64(i64)
declare void @pmem_persist(ptr, i64)
declare void @pmem_flush(ptr, i64)
declare void @pmem_drain()
declare void @pm_assert(ptr, i64)
declare void @llvm.x86.sse.sfence()
define i32 @main() {
entry:
  call void @roll_back()
  %call = call i64 @read_i64()
  %cmp17 = icmp sgt i64 %call, 0
  br i1 %cmp17, label %for.body, label %for.body10.preheader
for.body10.preheader:
  br label %for.body10
for.body:
  %i.018 = phi i64 [ %inc, %for.body ], [ 0, %entry ]
  %call1 = call i64 @read_i64()
  %call2 = call i64 @read_i64()
  %call3 = call i64 @read_i64()
  %call4 = call i32 @transfer(i64 %call1, i64 %call2, i64 %call3)
  %conv = zext i32 %call4 to i64
  call void @print_i64(i64 %conv)
  %inc = add i64 %i.018, 1
  %exitcond.not = icmp eq i64 %inc, %call
  br i1 %exitcond.not, label %for.body10.preheader, label %for.body
for.cond.cleanup9:
  ret i32 0
for.body10:
  %indvars.iv = phi i64 [ %indvars.iv.next, %for.body10 ], [ 0, %for.body10.preheader ]
  %arrayidx = getelementptr [8 x i64], ptr @balances, i64 0, i64 %indvars.iv
  %i = load i64, ptr %arrayidx, align 8
  call void @print_i64(i64 %i)
  %indvars.iv.next = add i64 %indvars.iv, 1
  %exitcond21.not = icmp eq i64 %indvars.iv.next, 8
  br i1 %exitcond21.not, label %for.cond.cleanup9, label %for.body10
}
define void @roll_back() {
entry:
  %i = load i64, ptr @undo, align 64
  %cmp.not8 = icmp eq i64 %i, 0
  br i1 %cmp.not8, label %while.end, label %while.body
while.body:
  %i1 = phi i64 [ %i5, %while.body ], [ %i, %entry ]
  %sub = add i64 %i1, -1
  %arrayidx = getelementptr [8 x { i64, i64 }], ptr getelementptr (i8, ptr @undo, i64 64), i64 0, i64 %sub
  %balance = getelementptr i8, ptr %arrayidx, i64 8
  %i2 = load i64, ptr %balance, align 8
  %i3 = load i64, ptr %arrayidx, align 16
  %arrayidx2 = getelementptr [8 x i64], ptr @balances, i64 0, i64 %i3
  store i64 %i2, ptr %arrayidx2, align 8
  call void @pmem_persist(ptr %arrayidx2, i64 8)
  %i4 = load i64, ptr @undo, align 64
  %sub5 = add i64 %i4, -1
  call void @set_count(i64 %sub5)
  %i5 = load i64, ptr @undo, align 64
  %cmp.not = icmp eq i64 %i5, 0
  br i1 %cmp.not, label %while.end, label %while.body
while.end:
  ret void
}
define i32 @transfer(i64 %from, i64 %to, i64 %amount) {
entry:
  %i = or i64 %to, %from
  %or.cond = icmp ugt i64 %i, 7
  %cmp3 = icmp slt i64 %amount, 0
  %or.cond10 = or i1 %or.cond, %cmp3
  br i1 %or.cond10, label %return, label %lor.lhs.false4
lor.lhs.false4:
  %arrayidx = getelementptr [8 x i64], ptr @balances, i64 0, i64 %from
  %i1 = load i64, ptr %arrayidx, align 8
  %cmp5 = icmp slt i64 %i1, %amount
  br i1 %cmp5, label %return, label %if.end
if.end:
  call void @remember(i64 %from)
  call void @remember(i64 %to)
  %i2 = load i64, ptr %arrayidx, align 8
  %sub = sub i64 %i2, %amount
  store i64 %sub, ptr %arrayidx, align 8
  %arrayidx7 = getelementptr [8 x i64], ptr @balances, i64 0, i64 %to
  %i3 = load i64, ptr %arrayidx7, align 8
  %add = add i64 %i3, %amount
  store i64 %add, ptr %arrayidx7, align 8
  call void @pmem_flush(ptr %arrayidx, i64 8)
  call void @pmem_flush(ptr %arrayidx7, i64 8)
  call void @pmem_drain()
  call void @set_count(i64 0)
  br label %return
return:
  %retval.0 = phi i32 [ 1, %if.end ], [ 0, %lor.lhs.false4 ], [ 0, %entry ]
  ret i32 %retval.0
}
define void @set_count(i64 %count) {
entry:
  store i64 %count, ptr @undo, align 64
  call void @pmem_persist(ptr @undo, i64 8)
  ret void
}
define void @remember(i64 %account) {
entry:
  %i = load i64, ptr @undo, align 64
  %arrayidx = getelementptr [8 x { i64, i64 }], ptr getelementptr (i8, ptr @undo, i64 64), i64 0, i64 %i
  store i64 %account, ptr %arrayidx, align 16
  %arrayidx3 = getelementptr [8 x i64], ptr @balances, i64 0, i64 %account
  %i1 = load i64, ptr %arrayidx3, align 8
  %balance = getelementptr i8, ptr %arrayidx, i64 8
  store i64 %i1, ptr %balance, align 8
  call void @pmem_flush(ptr %arrayidx, i64 16)
  call void @llvm.x86.sse.sfence()
  call void @pm_assert(ptr %arrayidx, i64 16)
  %i2 = load i64, ptr @undo, align 64
  %add = add i64 %i2, 1
  call void @set_count(i64 %add)
  ret void
}
