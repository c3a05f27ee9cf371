@events = global { i64, [56 x i8], [32 x { i64, i64, i64 }] } zeroinitializer, section ".pm", align 64
declare void @print_i64(i64)
declare void @llvm.x86.clwb(ptr)
declare void @llvm.x86.sse.sfence()
declare void @pm_assert(ptr, i64)
define i32 @main() {
entry:
  br label %for.body
for.body:
  %i.015 = phi i64 [ 0, %entry ], [ %inc, %for.body ]
  %rem = urem i64 %i.015, 12
  %mul = mul i64 %i.015, %i.015
  %call = call i32 @append(i64 %rem, i64 %mul)
  %tobool.not = icmp eq i32 %call, 0
  %inc = add i64 %i.015, 1
  %exitcond.not = icmp eq i64 %inc, 40
  %or.cond = select i1 %tobool.not, i1 true, i1 %exitcond.not
  br i1 %or.cond, label %cleanup, label %for.body
cleanup:
  %i = load i64, ptr @events, align 64
  call void @print_i64(i64 %i)
  br label %for.body4
for.cond.cleanup3:
  ret i32 0
for.body4:
  %key.016 = phi i64 [ 0, %cleanup ], [ %add, %for.body4 ]
  %call5 = call i64 @lookup(i64 %key.016)
  call void @print_i64(i64 %call5)
  %add = add i64 %key.016, 4
  %cmp2 = icmp ult i64 %key.016, 9
  br i1 %cmp2, label %for.body4, label %for.cond.cleanup3
}
define i32 @append(i64 %key, i64 %value) {
entry:
  %i = load i64, ptr @events, align 64
  %cmp = icmp eq i64 %i, 32
  br i1 %cmp, label %return, label %if.end
if.end:
  %arrayidx = getelementptr [32 x { i64, i64, i64 }], ptr getelementptr (i8, ptr @events, i64 64), i64 0, i64 %i
  store i64 %key, ptr %arrayidx, align 8
  %value2 = getelementptr i8, ptr %arrayidx, i64 8
  store i64 %value, ptr %value2, align 8
  call void @llvm.x86.clwb(ptr %value2)
  %call = call i64 @checksum(i64 %key, i64 %value)
  %checksum = getelementptr i8, ptr %arrayidx, i64 16
  store i64 %call, ptr %checksum, align 8
  call void @llvm.x86.clwb(ptr %checksum)
  call void @llvm.x86.clwb(ptr %arrayidx)
  call void @llvm.x86.sse.sfence()
  call void @pm_assert(ptr %arrayidx, i64 24)
  %i1 = load i64, ptr @events, align 64
  %add = add i64 %i1, 1
  store i64 %add, ptr @events, align 64
  call void @llvm.x86.clwb(ptr @events)
  call void @llvm.x86.sse.sfence()
  br label %return
return:
  %retval.0 = phi i32 [ 1, %if.end ], [ 0, %entry ]
  ret i32 %retval.0
}
define i64 @lookup(i64 %key) {
entry:
  %i = load i64, ptr @events, align 64
  %cmp16.not = icmp eq i64 %i, 0
  br i1 %cmp16.not, label %for.cond.cleanup, label %for.body
for.cond.cleanup:
  %value.0.lcssa = phi i64 [ -1, %entry ], [ %spec.select, %if.end ]
  ret i64 %value.0.lcssa
for.body:
  %value.018 = phi i64 [ %spec.select, %if.end ], [ -1, %entry ]
  %i.017 = phi i64 [ %inc, %if.end ], [ 0, %entry ]
  %arrayidx = getelementptr [32 x { i64, i64, i64 }], ptr getelementptr (i8, ptr @events, i64 64), i64 0, i64 %i.017
  %checksum = getelementptr i8, ptr %arrayidx, i64 16
  %i1 = load i64, ptr %checksum, align 8
  %i2 = load i64, ptr %arrayidx, align 8
  %value2 = getelementptr i8, ptr %arrayidx, i64 8
  %i3 = load i64, ptr %value2, align 8
  %call = call i64 @checksum(i64 %i2, i64 %i3)
  %cmp3.not = icmp eq i64 %i1, %call
  br i1 %cmp3.not, label %if.end, label %if.then
if.then:
  call void @print_i64(i64 -2)
  unreachable
if.end:
  %cmp5 = icmp eq i64 %i2, %key
  %spec.select = select i1 %cmp5, i64 %i3, i64 %value.018
  %inc = add i64 %i.017, 1
  %exitcond.not = icmp eq i64 %inc, %i
  br i1 %exitcond.not, label %for.cond.cleanup, label %for.body
}
define i64 @checksum(i64 %key, i64 %value) {
entry:
  %xor = xor i64 %key, 1469598103934665603
  %mul = mul i64 %xor, 1099511628211
  %xor1 = xor i64 %mul, %value
  %mul2 = mul i64 %xor1, 1099511628211
  ret i64 %mul2
}
