@heap = global { i64, i64, [1024 x i8] } zeroinitializer, section ".pm", align 16
@list = global i64 0, section ".pm", align 8
@scratch = global { i64, i64, [1024 x i8] } zeroinitializer, align 16
declare void @print_i64(i64)
declare void @pmem_persist(ptr, i64)
declare void @llvm.x86.clwb(ptr)
declare void @llvm.x86.sse.sfence()
define i32 @main() {
entry:
  call void @pool_format(ptr @heap)
  br label %while.cond
while.cond:
  %value.0 = phi i64 [ 0, %entry ], [ %inc, %while.cond ]
  %mul = mul i64 %value.0, %value.0
  %call = call i32 @push(i64 %mul)
  %tobool.not = icmp eq i32 %call, 0
  %inc = add i64 %value.0, 1
  br i1 %tobool.not, label %while.end, label %while.cond
while.end:
  call void @print_i64(i64 %value.0)
  %call1 = call i64 @sum()
  call void @print_i64(i64 %call1)
  br label %for.body
for.cond.cleanup:
  %call3 = call i32 @push(i64 1000)
  %call4 = call i64 @sum()
  call void @print_i64(i64 %call4)
  %i = load i64, ptr getelementptr (i8, ptr @heap, i64 8), align 8
  call void @print_i64(i64 %i)
  ret i32 0
for.body:
  %i.09 = phi i32 [ 0, %while.end ], [ %inc2, %for.body ]
  call void @pop()
  %inc2 = add i32 %i.09, 1
  %exitcond.not = icmp eq i32 %inc2, 10
  br i1 %exitcond.not, label %for.cond.cleanup, label %for.body
}
define void @pool_format(ptr %pool) {
entry:
  store i64 16, ptr %pool, align 16
  %taken = getelementptr i8, ptr %pool, i64 8
  store i64 0, ptr %taken, align 8
  %call = call ptr @block_at(ptr %pool, i64 16)
  store i64 1008, ptr %call, align 8
  %next = getelementptr i8, ptr %call, i64 8
  store i64 0, ptr %next, align 8
  ret void
}
define i32 @push(i64 %value) {
entry:
  %call = call i64 @pool_take.pm(ptr @heap, i64 16)
  call void @llvm.x86.sse.sfence()
  %cmp = icmp eq i64 %call, 0
  br i1 %cmp, label %cleanup, label %if.end
if.end:
  %call1 = call ptr @memory_at(ptr @heap, i64 %call)
  store i64 %value, ptr %call1, align 8
  %i = load i64, ptr @list, align 8
  %next = getelementptr i8, ptr %call1, i64 8
  store i64 %i, ptr %next, align 8
  call void @pmem_persist(ptr %call1, i64 16)
  store i64 %call, ptr @list, align 8
  call void @pmem_persist(ptr @list, i64 8)
  br label %cleanup
cleanup:
  %retval.0 = phi i32 [ 1, %if.end ], [ 0, %entry ]
  ret i32 %retval.0
}
define i64 @sum() {
entry:
  call void @pool_format(ptr @scratch)
  %call = call i64 @pool_take(ptr @scratch, i64 256)
  %call1 = call ptr @memory_at(ptr @scratch, i64 %call)
  %offset.023 = load i64, ptr @list, align 8
  %cmp24.not = icmp eq i64 %offset.023, 0
  br i1 %cmp24.not, label %for.cond4.preheader, label %for.body
for.cond4.preheader.loopexit:
  %i = trunc i64 %indvars.iv.next to i32
  br label %for.cond4.preheader
for.cond4.preheader:
  %count.0.lcssa = phi i32 [ 0, %entry ], [ %i, %for.cond4.preheader.loopexit ]
  %cmp527 = icmp sgt i32 %count.0.lcssa, 0
  br i1 %cmp527, label %for.body7.preheader, label %for.cond.cleanup6
for.body7.preheader:
  %wide.trip.count = zext i32 %count.0.lcssa to i64
  br label %for.body7
for.body:
  %indvars.iv = phi i64 [ %indvars.iv.next, %for.body ], [ 0, %entry ]
  %offset.026 = phi i64 [ %offset.0, %for.body ], [ %offset.023, %entry ]
  %call3 = call ptr @memory_at(ptr @heap, i64 %offset.026)
  %i1 = load i64, ptr %call3, align 8
  %arrayidx = getelementptr i64, ptr %call1, i64 %indvars.iv
  store i64 %i1, ptr %arrayidx, align 8
  %next = getelementptr i8, ptr %call3, i64 8
  %indvars.iv.next = add i64 %indvars.iv, 1
  %offset.0 = load i64, ptr %next, align 8
  %cmp = icmp ne i64 %offset.0, 0
  %cmp2 = icmp ult i64 %indvars.iv, 31
  %i2 = and i1 %cmp, %cmp2
  br i1 %i2, label %for.body, label %for.cond4.preheader.loopexit
for.cond.cleanup6:
  %total.0.lcssa = phi i64 [ 0, %for.cond4.preheader ], [ %add, %for.body7 ]
  call void @pool_give_back(ptr @scratch, i64 %call)
  ret i64 %total.0.lcssa
for.body7:
  %indvars.iv32 = phi i64 [ 0, %for.body7.preheader ], [ %indvars.iv.next33, %for.body7 ]
  %total.028 = phi i64 [ 0, %for.body7.preheader ], [ %add, %for.body7 ]
  %arrayidx9 = getelementptr i64, ptr %call1, i64 %indvars.iv32
  %i3 = load i64, ptr %arrayidx9, align 8
  %add = add i64 %i3, %total.028
  %indvars.iv.next33 = add i64 %indvars.iv32, 1
  %exitcond.not = icmp eq i64 %indvars.iv.next33, %wide.trip.count
  br i1 %exitcond.not, label %for.cond.cleanup6, label %for.body7
}
define void @pop() {
entry:
  %i = load i64, ptr @list, align 8
  %call = call ptr @memory_at(ptr @heap, i64 %i)
  %next = getelementptr i8, ptr %call, i64 8
  %i1 = load i64, ptr %next, align 8
  store i64 %i1, ptr @list, align 8
  call void @pmem_persist(ptr @list, i64 8)
  call void @pool_give_back.pm(ptr @heap, i64 %i)
  call void @llvm.x86.sse.sfence()
  ret void
}
define ptr @block_at(ptr %pool, i64 %offset) {
entry:
  %bytes = getelementptr i8, ptr %pool, i64 16
  %sub = add i64 %offset, -16
  %arrayidx = getelementptr [1024 x i8], ptr %bytes, i64 0, i64 %sub
  ret ptr %arrayidx
}
define i64 @pool_take(ptr %pool, i64 %size) {
entry:
  %add = add i64 %size, 15
  %and = and i64 %add, -16
  %add4 = add i64 %and, 32
  %add7 = add i64 %and, 16
  %taken = getelementptr i8, ptr %pool, i64 8
  br label %for.cond
for.cond:
  %link.0 = phi ptr [ %pool, %entry ], [ %link.1, %cleanup ]
  %retval.0 = phi i64 [ 0, %entry ], [ %retval.1, %cleanup ]
  %offset.0 = load i64, ptr %link.0, align 8
  %cmp.not = icmp eq i64 %offset.0, 0
  br i1 %cmp.not, label %cleanup21, label %for.body
for.body:
  %call = call ptr @block_at(ptr %pool, i64 %offset.0)
  %i = load i64, ptr %call, align 8
  %cmp2.not = icmp ult i64 %i, %and
  br i1 %cmp2.not, label %if.end19, label %if.then
if.then:
  %cmp5.not = icmp ult i64 %i, %add4
  br i1 %cmp5.not, label %if.else, label %if.then6
if.then6:
  %add8 = add i64 %add7, %offset.0
  %reass.sub = sub i64 %i, %and
  %sub10 = add i64 %reass.sub, -16
  %call11 = call ptr @block_at(ptr %pool, i64 %add8)
  store i64 %sub10, ptr %call11, align 8
  %next = getelementptr i8, ptr %call, i64 8
  %i1 = load i64, ptr %next, align 8
  %next14 = getelementptr i8, ptr %call11, i64 8
  store i64 %i1, ptr %next14, align 8
  store i64 %and, ptr %call, align 8
  br label %if.end
if.else:
  %next16 = getelementptr i8, ptr %call, i64 8
  %i2 = load i64, ptr %next16, align 8
  br label %if.end
if.end:
  %storemerge = phi i64 [ %i2, %if.else ], [ %add8, %if.then6 ]
  store i64 %storemerge, ptr %link.0, align 8
  %i3 = load i64, ptr %call, align 8
  %i4 = load i64, ptr %taken, align 8
  %add18 = add i64 %i4, %i3
  store i64 %add18, ptr %taken, align 8
  br label %cleanup
if.end19:
  %next20 = getelementptr i8, ptr %call, i64 8
  br label %cleanup
cleanup:
  %link.1 = phi ptr [ %link.0, %if.end ], [ %next20, %if.end19 ]
  %retval.1 = phi i64 [ %offset.0, %if.end ], [ %retval.0, %if.end19 ]
  br i1 %cmp2.not, label %for.cond, label %cleanup21
cleanup21:
  %spec.select = phi i64 [ %retval.1, %cleanup ], [ 0, %for.cond ]
  ret i64 %spec.select
}
define ptr @memory_at(ptr %pool, i64 %offset) {
entry:
  %bytes = getelementptr i8, ptr %pool, i64 16
  %arrayidx = getelementptr [1024 x i8], ptr %bytes, i64 0, i64 %offset
  ret ptr %arrayidx
}
define void @pool_give_back(ptr %pool, i64 %offset) {
entry:
  %call = call ptr @block_at(ptr %pool, i64 %offset)
  %i = load i64, ptr %call, align 8
  %taken = getelementptr i8, ptr %pool, i64 8
  %i1 = load i64, ptr %taken, align 8
  %sub = sub i64 %i1, %i
  store i64 %sub, ptr %taken, align 8
  %i2 = load i64, ptr %pool, align 16
  %next = getelementptr i8, ptr %call, i64 8
  store i64 %i2, ptr %next, align 8
  store i64 %offset, ptr %pool, align 16
  ret void
}
define i64 @pool_take.pm(ptr %pool, i64 %size) {
entry:
  %add = add i64 %size, 15
  %and = and i64 %add, -16
  %add4 = add i64 %and, 32
  %add7 = add i64 %and, 16
  %taken = getelementptr i8, ptr %pool, i64 8
  br label %for.cond
for.cond:
  %link.0 = phi ptr [ %pool, %entry ], [ %link.1, %cleanup ]
  %retval.0 = phi i64 [ 0, %entry ], [ %retval.1, %cleanup ]
  %offset.0 = load i64, ptr %link.0, align 8
  %cmp.not = icmp eq i64 %offset.0, 0
  br i1 %cmp.not, label %cleanup21, label %for.body
for.body:
  %call = call ptr @block_at.pm(ptr %pool, i64 %offset.0)
  %i = load i64, ptr %call, align 8
  %cmp2.not = icmp ult i64 %i, %and
  br i1 %cmp2.not, label %if.end19, label %if.then
if.then:
  %cmp5.not = icmp ult i64 %i, %add4
  br i1 %cmp5.not, label %if.else, label %if.then6
if.then6:
  %add8 = add i64 %add7, %offset.0
  %reass.sub = sub i64 %i, %and
  %sub10 = add i64 %reass.sub, -16
  %call11 = call ptr @block_at.pm(ptr %pool, i64 %add8)
  store i64 %sub10, ptr %call11, align 8
  call void @llvm.x86.clwb(ptr %call11)
  %next = getelementptr i8, ptr %call, i64 8
  %i1 = load i64, ptr %next, align 8
  %next14 = getelementptr i8, ptr %call11, i64 8
  store i64 %i1, ptr %next14, align 8
  call void @llvm.x86.clwb(ptr %next14)
  store i64 %and, ptr %call, align 8
  call void @llvm.x86.clwb(ptr %call)
  br label %if.end
if.else:
  %next16 = getelementptr i8, ptr %call, i64 8
  %i2 = load i64, ptr %next16, align 8
  br label %if.end
if.end:
  %storemerge = phi i64 [ %i2, %if.else ], [ %add8, %if.then6 ]
  store i64 %storemerge, ptr %link.0, align 8
  call void @llvm.x86.clwb(ptr %link.0)
  %i3 = load i64, ptr %call, align 8
  %i4 = load i64, ptr %taken, align 8
  %add18 = add i64 %i4, %i3
  store i64 %add18, ptr %taken, align 8
  call void @llvm.x86.clwb(ptr %taken)
  br label %cleanup
if.end19:
  %next20 = getelementptr i8, ptr %call, i64 8
  br label %cleanup
cleanup:
  %link.1 = phi ptr [ %link.0, %if.end ], [ %next20, %if.end19 ]
  %retval.1 = phi i64 [ %offset.0, %if.end ], [ %retval.0, %if.end19 ]
  br i1 %cmp2.not, label %for.cond, label %cleanup21
cleanup21:
  %spec.select = phi i64 [ %retval.1, %cleanup ], [ 0, %for.cond ]
  ret i64 %spec.select
}
define void @pool_give_back.pm(ptr %pool, i64 %offset) {
entry:
  %call = call ptr @block_at.pm(ptr %pool, i64 %offset)
  %i = load i64, ptr %call, align 8
  %taken = getelementptr i8, ptr %pool, i64 8
  %i1 = load i64, ptr %taken, align 8
  %sub = sub i64 %i1, %i
  store i64 %sub, ptr %taken, align 8
  call void @llvm.x86.clwb(ptr %taken)
  %i2 = load i64, ptr %pool, align 16
  %next = getelementptr i8, ptr %call, i64 8
  store i64 %i2, ptr %next, align 8
  call void @llvm.x86.clwb(ptr %next)
  store i64 %offset, ptr %pool, align 16
  call void @llvm.x86.clwb(ptr %pool)
  ret void
}
define ptr @block_at.pm(ptr %pool, i64 %offset) {
entry:
  %bytes = getelementptr i8, ptr %pool, i64 16
  %sub = add i64 %offset, -16
  %arrayidx = getelementptr [1024 x i8], ptr %bytes, i64 0, i64 %sub
  ret ptr %arrayidx
}
