@head = global i64 0, section ".pm", align 64
@log = global [40 x { i64, i64 }] zeroinitializer, section ".pm", align 64
@count = global i64 0, section ".pm", align 64
declare void @llvm.x86.clwb(ptr)
declare void @llvm.x86.sse.sfence()
declare void @print_i64(i64)
define ptr @take_slot() {
entry:
  %h = load i64, ptr @head
  %n = add i64 %h, 1
  store i64 %n, ptr @head
  call void @llvm.x86.clwb(ptr @head)
  call void @llvm.x86.sse.sfence()
  %s = getelementptr [40 x { i64, i64 }], ptr @log, i64 0, i64 %h
  ret ptr %s
}
define void @fill(ptr %s, i64 %k, i64 %v) {
entry:
  %a = getelementptr { i64, i64 }, ptr %s, i64 0, i32 0
  store i64 %k, ptr %a
  %b = getelementptr { i64, i64 }, ptr %s, i64 0, i32 1
  store i64 %v, ptr %b
  ret void
}
define i32 @main() {
entry:
  %tmp = alloca { i64, i64 }
  br label %loop
loop:
  %i = phi i64 [ 0, %entry ], [ %j, %loop ]
  %sq = mul i64 %i, %i
  call void @fill(ptr %tmp, i64 %i, i64 %sq)
  %j = add i64 %i, 1
  store i64 %j, ptr @count
  call void @llvm.x86.clwb(ptr @count)
  call void @llvm.x86.sse.sfence()
  %s = call ptr @take_slot()
  call void @fill.pm(ptr %s, i64 %i, i64 %sq)
  call void @llvm.x86.sse.sfence()
  %c = icmp ult i64 %j, 40
  br i1 %c, label %loop, label %done
done:
  %z = load i64, ptr @count
  call void @print_i64(i64 %z)
  ret i32 0
}
define void @fill.pm(ptr %s, i64 %k, i64 %v) {
entry:
  %a = getelementptr { i64, i64 }, ptr %s, i64 0, i32 0
  store i64 %k, ptr %a
  call void @llvm.x86.clwb(ptr %a)
  %b = getelementptr { i64, i64 }, ptr %s, i64 0, i32 1
  store i64 %v, ptr %b
  call void @llvm.x86.clwb(ptr %b)
  ret void
}
